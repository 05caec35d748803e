; The sound program of ONE SHOT.

.include "sound.inc"

HEARD  = $10                            ; 1 for a source that was heard
LEFT   = $14

.segment "SOUND"
        jmp_m   begin
        .byte   0
        .word   first, first            ; source 1: a block that is heard, and an empty one with the end
        .word   last, last              ; source 2: the other way round
        .word   loop, loop              ; source 3: a block with end and loop
        .word   eight, eight            ; source 4: eight blocks
first:  .byte   $B0, $77, $77, $77, $77, $77, $77, $77, $77
        .byte   $B1, 0, 0, 0, 0, 0, 0, 0, 0
last:   .byte   $B0, 0, 0, 0, 0, 0, 0, 0, 0
        .byte   $B1, $77, $77, $77, $77, $77, $77, $77, $77
loop:   .byte   $B3, $77, $77, $77, $77, $77, $77, $77, $77
eight:  .repeat 7
        .byte   $B0, $77, $77, $77, $77, $77, $77, $77, $77
        .endrepeat
        .byte   $B1, $77, $77, $77, $77, $77, $77, $77, $77

begin:  voices  $04
        mov_d_i HEARD, 1
        call    listen
        mov_d_d HEARD+1, HEARD
        mov_d_i HEARD, 2
        call    listen
        mov_d_d HEARD+2, HEARD
        mov_d_i HEARD, 3
        call    listen
        mov_d_d HEARD+3, HEARD

        dsp     $04, 4
        dsp     $02, 0
        dsp     $03, $10
        call    shot
        dsp     $03, $08
        call    shot
        dsp     $03, $04
        call    shot
        tell    HEARD+1, HEARD+2, HEARD+3

shot:   dsp     $4C, 1
        wait_1542 40
        ret

; Plays a source with 8,000 samples a second, and looks at OUTX for two blocks and more: 256 times 32 cycles.
listen: mov_d_i $F2, $04
        mov_d_d $F3, HEARD
        dsp     $4C, 1
        mov_d_i HEARD, 0
        mov_d_i LEFT, 0
look:   mov_d_i $F2, $09                ; OUTX of voice 0
        mov_a_d $F3
        or_a_d  HEARD
        mov_d_a HEARD
        wait_6  2
        dec_d   LEFT
        bne_    look
        mov_a_d HEARD
        cmp_a_i 1                       ; 0 or 1
        mov_a_i 0
        adc_a_i 0
        mov_d_a HEARD
        dsp     $6C, $E0
        wait_6  100
        mov_d_i $F3, $20
        wait_1542 10
        ret
