# A running total, which traps where it would leave its limits.
# The input says how many movements come, and then has each of them, in cents.
set desk
data 0                                # word 0: the total

        IN r1 0 1000 6                # how many are left
        LDI r2 1
again:  BEQ r1 r15 done               # nothing is put in r15: it is 0
        IN r3 -400000000 400000000 9
        LD r0 0
        ADD r0 r0 r3
        CHK r0 0 400000000 12         # never below 0, never above 4,000,000.00
        ST r0 0
        OUT r0
        SUB r1 r1 r2
        JMP again
done:                                 # behind the last instruction: the run ends
