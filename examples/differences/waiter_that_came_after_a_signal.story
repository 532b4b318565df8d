# t2 and t3 wait, a signal takes one of them, and then t4 waits, which has a greater priority. Whom does a signal take?
thread 10          = t1
thread 20          = t2
thread 20          = t3
thread 50          = t4
mutex normal       = m1
cond m1            = c1
call t2 lock m1    = answer 0
call t2 wait c1 m1 = waits
call t3 lock m1    = answer 0
call t3 wait c1 m1 = waits
call t1 signal c1  = answer 0
finish t2          = answer 0
call t2 unlock m1  = answer 0
call t4 lock m1    = answer 0
call t4 wait c1 m1 = waits
call t1 signal c1  = answer 0
finish t4          = answer 0
