; The sound program of KEY ON.

.include "sound.inc"

TRIES  = $10
VOICES = $12                            ; a count for each voice
NONE   = $16

.segment "SOUND"
        jmp_m   begin
        .byte   0
        .word   wave, wave              ; source 1
wave:   .byte   $B3, $77, $77, $77, $77, $99, $99, $99, $99

begin:  voices  $10
        mov_d_i VOICES, 0
        mov_d_i VOICES+3, 0
        mov_d_i NONE, 0
        mov_d_i TRIES, 64
; A try takes 1,281 cycles: 20 times two samples, and one.
four:   dsp     $4C, 1
        mov_d_i $F3, 2
        mov_d_i $F3, 4
        mov_d_i $F3, 8
        wait_6  173
        mov_d_i $F2, $08                ; ENVX of voice 0
        mov_a_d $F3
        cmp_a_i 1                       ; the carry is set if it is not 0
        adc_d_i VOICES, 0
        mov_d_i $F2, $18
        mov_a_d $F3
        cmp_a_i 1
        adc_d_i VOICES+1, 0
        mov_d_i $F2, $28
        mov_a_d $F3
        cmp_a_i 1
        adc_d_i VOICES+2, 0
        mov_d_i $F2, $38
        mov_a_d $F3
        cmp_a_i 1
        adc_d_i VOICES+3, 0
        dsp     $6C, $E0                ; all voices silent at once
        wait_6  22
        mov_d_i $F3, $20
        mov_a_d TRIES
        dec_d   TRIES
        bne_    four

        mov_d_i TRIES, 64
; And this one 1,217.
none:   dsp     $4C, 1
        mov_d_i $F3, 0
        wait_6  172
        mov_d_i $F2, $08
        mov_a_d $F3
        cmp_a_i 1
        adc_d_i NONE, 0
        dsp     $6C, $E0
        wait_6  22
        mov_d_i $F3, $20
        dec_d   TRIES
        bne_    none
        tell    VOICES, VOICES+3, NONE
