# t2 was signalled before its deadline, and waits for m1 now. Then the deadline is reached.
thread 10                 = t1
thread 20                 = t2
mutex normal              = m1
cond m1                   = c1
call t2 lock m1           = answer 0
call t2 timedwait c1 m1 5 = waits
call t1 lock m1           = answer 0
call t1 signal c1         = answer 0
finish t2                 = waits
tick 5                    = ticked
finish t2                 = waits
call t1 unlock m1         = answer 0
finish t2                 = answer 0
word m1                   = 0x80000002
