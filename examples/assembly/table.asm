# A table lookup: how many days a month has, for month after month, until 0 comes.
set pocket
data 31         # word 0: January
data 28
data 31
data 30
data 31
data 30
data 31
data 31
data 30
data 31
data 30
data 31         # word 11: December

        LDI r2 1
next:   IN r0 0 97 17
        BEQ r0 r15 done
        SUB r1 r0 r2            # the months are counted from 1, the words from 0
        LDX r3 r1 0 12 20       # a month that isn't there traps here
        OUT r3
        JMP next
done:   HALT
