; The sound program of KEY OFF.

.include "sound.inc"

TRIES  = $10
HELD   = $11

.segment "SOUND"
        jmp_m   begin
        .byte   0
        .word   wave, wave              ; source 1
wave:   .byte   $B3, $77, $77, $77, $77, $99, $99, $99, $99

begin:  voices  $10
        mov_d_i HELD, 0
        mov_d_i TRIES, 64
; A try takes 4,353 cycles: 68 times two samples, and one.
try:    dsp     $4C, 1
        wait_6  172                     ; the note sounds, as loud as it gets
        dsp     $5C, 1
        mov_a_d HELD                    ; 37 cycles, and 5 to the next write
        wait_6  5
        nop_
        nop_
        mov_d_i $F3, 0
        wait_1542 2                     ; 96 samples: a note that is released falls from 7F to 4F
        mov_d_i $F2, $08
        mov_a_d $F3
        cmp_a_i $70                     ; the carry is set if it was not released
        adc_d_i HELD, 0
        dsp     $6C, $E0
        wait_6  22
        mov_d_i $F3, $20
        mov_a_d HELD
        nop_
        dec_d   TRIES
        bne_    try
        tell    HELD, HELD, HELD
