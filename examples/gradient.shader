; Red rises to the right, green rises downward, blue falls to the right.
; Lane registers keep their values, so the constants survive the one block where x is 0.
        div  $30, $2, $2        ; 1, but not a number where x is 0
        abs  $29, $2
        sub  $29, $0, $29       ; below 0 where x is not 0
        cmov $31, $30, $29      ; $31 = 1
        add  $30, $31, $31      ; 2
        add  $30, $30, $30      ; 4
        add  $29, $30, $31      ; $29 = 5
        mul  $28, $30, $30      ; 16
        mul  $28, $28, $30      ; 64
        mul  $27, $28, $29      ; $27 = 320
        add  $26, $2, $16       ; the pixel's own x
        add  $26, $26, $27
        div  $17, $26, $29      ; red, 0 to 127
        div  $25, $27, $30      ; 80
        sub  $25, $27, $25      ; 240
        add  $18, $1, $25
        div  $18, $18, $30      ; green, 0 to 119
        add  $24, $28, $28      ; 128
        sub  $19, $24, $17      ; blue
        done
