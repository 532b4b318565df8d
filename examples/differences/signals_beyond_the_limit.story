# The limits of this story allow two signals of a variable.
limits 1 1 1 2       = ok
thread 10            = t1
mutex normal         = m1
cond m1              = c1
call t1 signal c1    = answer 0
call t1 broadcast c1 = answer 0
call t1 signal c1    = answer 75
