# POSIX has EBUSY (16) for a trylock of a mutex that is held, and EDEADLK (35) for lock alone.
thread 10          = t1
mutex errorcheck   = m1
call t1 lock m1    = answer 0
call t1 trylock m1 = answer 16
