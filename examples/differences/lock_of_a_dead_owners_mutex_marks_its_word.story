# t1 ended while it held the stalled m1. The kernel refuses t2's lock, and t2 waits for good.
thread 10       = t1
thread 20       = t2
mutex normal    = m1
call t1 lock m1 = answer 0
end t1          = ended
word m1         = 0x00000001
call t2 lock m1 = waits
word m1         = 0x00000001
