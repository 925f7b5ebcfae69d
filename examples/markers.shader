; A ring of eight markers around a ninth in the middle, on a dark ground.
        div  $30, $2, $2
        abs  $29, $2
        sub  $29, $0, $29
        cmov $31, $30, $29      ; $31 = 1
        add  $30, $31, $31      ; 2
        add  $30, $30, $30      ; $30 = 4
        mul  $29, $30, $30      ; $29 = 16
        add  $28, $2, $16
        div  $28, $28, $29
        abs  $28, $28           ; distance from the middle column, in sixteenths
        div  $27, $1, $29
        abs  $27, $27           ; distance from the middle row
        sub  $26, $28, $27      ; fold the plate along its diagonal
        bltz $26, upper
        add  $25, $28, $0       ; the greater
        add  $24, $27, $0       ; the smaller
upper:  cmov $25, $27, $26
        cmov $24, $28, $26
        add  $23, $30, $31      ; 5
        sub  $22, $25, $23
        sub  $22, $22, $23      ; 10 from the middle
        mul  $22, $22, $22
        sub  $21, $24, $30      ; and 4 to the side
        mul  $21, $21, $21
        add  $22, $22, $21      ; square of the distance from the marker of this eighth
        mul  $20, $28, $28
        mul  $21, $27, $27
        add  $20, $20, $21      ; and from the one in the middle
        add  $17, $0, $0
        add  $18, $0, $0
        add  $19, $29, $29      ; a dark ground
        sub  $22, $31, $22
        bltz $22, middle        ; outside the ring's marker
        mul  $17, $29, $30
        add  $17, $17, $17      ; red, 128
middle: sub  $20, $31, $20
        bltz $20, last
        mul  $18, $29, $30
        add  $18, $18, $18      ; green, 128
last:   done
