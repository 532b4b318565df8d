# The same cycle, of recursive mutexes: glibc ends the whole process by a failed assertion.
thread 10         = t1
thread 20         = t2
mutex recursive   = m1
mutex recursive   = m2
call t1 lock m1   = answer 0
call t2 lock m2   = answer 0
call t2 lock m1   = waits
call t1 lock m2   = answer 35
call t1 unlock m1 = answer 0
