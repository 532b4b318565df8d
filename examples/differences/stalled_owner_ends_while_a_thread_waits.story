# m1 is stalled: POSIX asks for 'no special actions' when its owner ends, and t2 waits.
thread 10       = t1
thread 20       = t2
mutex normal    = m1
call t1 lock m1 = answer 0
call t2 lock m1 = waits
end t1          = ended
finish t2       = waits
word m1         = 0x80000001
