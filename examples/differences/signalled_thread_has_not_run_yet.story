# Nobody holds m1, and t2 is parked. A signal takes t2, and before that has run t1 tries to lock m1: does it get it?
thread 30          = t1
thread 20          = t2
mutex normal       = m1
cond m1            = c1
call t2 lock m1    = answer 0
call t2 wait c1 m1 = waits
call t1 signal c1  = answer 0
call t1 trylock m1 = answer 16
finish t2          = answer 0
