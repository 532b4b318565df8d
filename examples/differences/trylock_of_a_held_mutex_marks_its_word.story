# t1 holds m1. t2 tries, is refused, and doesn't wait.
thread 10          = t1
thread 20          = t2
mutex normal       = m1
call t1 lock m1    = answer 0
call t2 trylock m1 = answer 16
word m1            = 0x00000001
