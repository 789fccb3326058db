# A procedure that is called twice: the greatest common divisor of three numbers, by that of two.
set hall
        JMP main

divisor:                        # of r0 and r1, in r0; r1 and r2 are changed
        BEQ r1 r15 back
        MOD r2 r0 r1 7
        MOV r0 r1
        MOV r1 r2
        JMP divisor
back:   RET 11

main:   IN r0 0 1000000000000 13
        IN r1 0 1000000000000 14
        CALL divisor 15
        OUT r0                  # of the first two
        IN r1 0 1000000000000 17
        CALL divisor 18
        OUT r0                  # of all three
