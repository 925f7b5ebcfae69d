; The Mandelbrot set by at most 32 turns of a loop that a lane leaves early by a branch.
        div  $30, $2, $2
        abs  $29, $2
        sub  $29, $0, $29
        cmov $31, $30, $29      ; $31 = 1
        add  $30, $31, $31      ; $30 = 2
        add  $29, $30, $30      ; $29 = 4
        mul  $28, $29, $29
        mul  $28, $28, $29
        mul  $28, $28, $30      ; 128
        add  $27, $2, $16
        div  $27, $27, $28
        div  $26, $31, $30
        sub  $27, $27, $26      ; real part, -3 to 2
        div  $26, $1, $28       ; imaginary part
        add  $25, $0, $0        ; z starts at 0
        add  $24, $0, $0
        add  $23, $0, $0        ; turns
        setx 31
turn:   mul  $22, $25, $25
        mul  $21, $24, $24
        add  $20, $22, $21
        sub  $20, $29, $20
        bltz $20, out           ; farther than 2 from 0
        mul  $24, $24, $25
        mul  $24, $24, $30
        add  $24, $24, $26
        sub  $25, $22, $21
        add  $25, $25, $27
        add  $23, $23, $31
        loop turn
out:    mul  $17, $23, $29      ; red, 0 to 128
        mul  $18, $23, $30      ; green, 0 to 64
        sub  $19, $28, $17      ; blue
        done
