# t2 alone is parked, and nobody holds m1: a broadcast gives it m1. Does its unlock have to ask the kernel?
thread 10            = t1
thread 20            = t2
mutex normal         = m1
cond m1              = c1
call t2 lock m1      = answer 0
call t2 wait c1 m1   = waits
call t1 broadcast c1 = answer 0
finish t2            = answer 0
word m1              = 0x00000002
