# t2 is parked and ends. t1 signals: nobody is to be woken. Then t3 is parked, and t1 signals again.
thread 10          = t1
thread 20          = t2
thread 30          = t3
mutex normal       = m1
cond m1            = c1
call t2 lock m1    = answer 0
call t2 wait c1 m1 = waits
end t2             = ended
call t1 signal c1  = answer 0
call t3 lock m1    = answer 0
call t3 wait c1 m1 = waits
call t1 signal c1  = answer 0
finish t3          = answer 0
