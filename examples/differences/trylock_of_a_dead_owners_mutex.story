# t1 ended while it held the stalled m1. For trylock it is held.
thread 10          = t1
thread 10          = t2
mutex normal       = m1
call t1 lock m1    = answer 0
end t1             = ended
call t2 trylock m1 = answer 16
