# t1 waits on c1 with m1. t2 locks m1 and ends, so that m1 is owned for good. Who is told of that by the signal?
thread 10          = t1
thread 20          = t2
thread 30          = t3
mutex normal       = m1
cond m1            = c1
call t1 lock m1    = answer 0
call t1 wait c1 m1 = waits
call t2 lock m1    = answer 0
end t2             = ended
call t3 signal c1  = answer 0
finish t1          = waits
