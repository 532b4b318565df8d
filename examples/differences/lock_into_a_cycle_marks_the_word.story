# t1 holds m1, and t2 holds m2 and waits for m1. The kernel refuses t1's lock of m2.
thread 10       = t1
thread 20       = t2
mutex normal    = m1
mutex normal    = m2
call t1 lock m1 = answer 0
call t2 lock m2 = answer 0
call t2 lock m1 = waits
word m2         = 0x00000002
call t1 lock m2 = answer 35
word m2         = 0x00000002
