# t1 and t2 have one priority, and t1 ran first until t3 boosted it. Who of the two runs first after the boost?
thread 10         = t1
thread 10         = t2
thread 50         = t3
mutex normal      = m1
pick              = t3
call t1 lock m1   = answer 0
call t3 lock m1   = waits
prio t1           = 50
call t1 unlock m1 = answer 0
end t3            = ended
pick              = t2
