# c1 is bound to m1, and t1 waits for it with m2.
thread 10          = t1
mutex normal       = m1
mutex normal       = m2
cond m1            = c1
call t1 lock m2    = answer 0
call t1 wait c1 m2 = answer 22
