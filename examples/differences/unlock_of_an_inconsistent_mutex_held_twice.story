# t2 holds the recursive m1 twice, inconsistent, and takes one lock back.
thread 10              = t1
thread 10              = t2
mutex recursive robust = m1
call t1 lock m1        = answer 0
end t1                 = ended
call t2 lock m1        = answer 130
call t2 lock m1        = answer 0
call t2 unlock m1      = answer 0
word m1                = 0x00000002
call t2 consistent m1  = answer 0
call t2 unlock m1      = answer 0
word m1                = 0x00000000
