# t1 lowers t2 to the priority of t3. Both are ready: which of them runs first once t1 has ended?
thread 50             = t1
thread 30             = t2
thread 20             = t3
call t1 setprio t2 20 = answer 0
end t1                = ended
pick                  = t3
