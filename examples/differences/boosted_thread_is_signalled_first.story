# t2 and t3 are parked, and t3 has the greater priority. But t4 waits for what t2 holds: t2 has its priority now.
thread 10          = t1
thread 10          = t2
thread 15          = t3
thread 40          = t4
mutex normal       = m1
mutex normal       = m2
cond m1            = c1
call t2 lock m2    = answer 0
call t2 lock m1    = answer 0
call t2 wait c1 m1 = waits
call t3 lock m1    = answer 0
call t3 wait c1 m1 = waits
call t4 lock m2    = waits
prio t2            = 40
call t1 signal c1  = answer 0
finish t2          = answer 0
finish t3          = waits
