# The time comes to which t2 waits. Does t1 still run at the priority of t2?
thread 10              = t1
thread 50              = t2
mutex normal           = m1
call t1 lock m1        = answer 0
call t2 timedlock m1 5 = waits
prio t1                = 50
tick 5                 = ticked
prio t1                = 50
finish t2              = answer 110
prio t1                = 10
