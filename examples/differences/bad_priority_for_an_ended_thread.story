# Two things are wrong here: which is told?
thread 10              = t1
thread 10              = t2
end t2                 = ended
call t1 setprio t2 100 = answer 22
