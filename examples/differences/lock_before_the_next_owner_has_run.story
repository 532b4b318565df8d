# t1 hands m1 over to t2. t3 has a greater priority than t2, and locks before t2 has run: who owns m1?
thread 70         = t1
thread 50         = t2
thread 60         = t3
mutex normal      = m1
call t1 lock m1   = answer 0
call t2 lock m1   = waits
call t1 unlock m1 = answer 0
word m1           = 0x80000002
call t3 lock m1   = waits
finish t2         = answer 0
word m1           = 0x80000002
