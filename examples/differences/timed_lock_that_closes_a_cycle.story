# t1 holds m1, and t2 holds m2 and waits for m1. A timed lock of m2 by t1 would end the cycle at its deadline.
thread 10              = t1
thread 20              = t2
mutex normal           = m1
mutex normal           = m2
call t1 lock m1        = answer 0
call t2 lock m2        = answer 0
call t2 lock m1        = waits
call t1 timedlock m2 5 = answer 35
