# t2 holds m1, inconsistent. t3 doesn't hold it, and says that it is consistent.
thread 10             = t1
thread 10             = t2
thread 10             = t3
mutex normal robust   = m1
call t1 lock m1       = answer 0
call t3 consistent m1 = answer 1
end t1                = ended
call t2 lock m1       = answer 130
health m1             = inconsistent
call t3 consistent m1 = answer 1
health m1             = inconsistent
