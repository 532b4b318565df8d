# t1 holds m1 twice and waits with it: one unlock doesn't give it up.
thread 10          = t1
thread 10          = t2
mutex recursive    = m1
cond m1            = c1
call t1 lock m1    = answer 0
call t1 lock m1    = answer 0
call t1 wait c1 m1 = answer 22
word m1            = 0x00000001
