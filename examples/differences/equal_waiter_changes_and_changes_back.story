# t2 and t3 wait with equal priorities, t2 came first. Its priority goes up and back again: who is next?
thread 10             = t1
thread 20             = t2
thread 20             = t3
mutex normal          = m1
call t1 lock m1       = answer 0
call t2 lock m1       = waits
call t3 lock m1       = waits
call t1 setprio t2 30 = answer 0
call t1 setprio t2 20 = answer 0
call t1 unlock m1     = answer 0
word m1               = 0x80000002
