# t1 and t3 are parked. t1 holds m2, t2 holds m1 and waits for m2: if t1 is queued for m1, a cycle closes.
thread 30            = t1
thread 20            = t2
thread 25            = t3
thread 10            = t4
mutex normal         = m1
mutex normal         = m2
cond m1              = c1
call t1 lock m1      = answer 0
call t1 lock m2      = answer 0
call t1 wait c1 m1   = waits
call t3 lock m1      = answer 0
call t3 wait c1 m1   = waits
call t2 lock m1      = answer 0
call t2 lock m2      = waits
call t4 broadcast c1 = answer 0
prio t2              = 25
finish t1            = answer 35
