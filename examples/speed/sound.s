; The program of the sound processor of TUNE: eight voices in one tune, each with an echo. It lies in the cartridge, and
; runs at 0200 of the sound processor's own memory. Timer 0 ticks each millisecond, and most of it is work.

.include "spc700.inc"

.export begin

STEP_TICKS = 100                        ; ticks of a step: a note of one voice

; The direct page. The last three have a byte for each voice.
WAIT   = $10                            ; ticks until the next step
STEP   = $11                            ; of the tune
PASSED = $12                            ; ticks since the last look
BEND   = $13                            ; 0 to 127: a triangle of the voice's phase
LOW    = $14                            ; the pitch that is written
PHASE  = $20
PITCH_LOW  = $28
PITCH_HIGH = $30

.segment "SOUND"

; The directory comes first, since it has to begin at a page.
directory:
        .word   triangle, triangle
        .word   square, square
triangle: .byte $B3, $02, $46, $76, $42, $0E, $CA, $9A, $CE     ; a block of BRR: shift 11, no filter, loop, end
square: .byte   $93, $77, $77, $77, $77, $99, $99, $99, $99     ; shift 9: 7 and -7

begin:  mov_x_i 0
setup:  mov_a_mx registers
        bmi_    ready
        mov_d_a $F2
        inc_x
        mov_a_mx registers
        mov_d_a $F3
        inc_x
        bra_    setup
ready:  mov_x_i 7                       ; all voices begin with the same note, and each with a phase of its own
first:  mov_a_mx phases
        mov_dx_a PHASE
        mov_a_mx notes
        mov_dx_a PITCH_LOW
        mov_a_mx notes+32
        mov_dx_a PITCH_HIGH
        dec_x
        bpl_    first
        mov_d_i WAIT, STEP_TICKS
        mov_d_i STEP, 0
        mov_d_i $F5, 0
        mov_d_i $F2, $4C
        mov_d_i $F3, $FF                ; KON: all eight
        mov_d_i $FA, 8                  ; timer 0: 8 times 125 microseconds
        mov_d_i $F1, $01                ; timer 0 on, the boot ROM away

; The ticks since the last look: mostly one.
tick:   mov_a_d $FD
        beq_    tick
        mov_d_a PASSED
count:  dec_d   WAIT
        bne_    more
        mov_d_i WAIT, STEP_TICKS
        call    play
more:   dec_d   PASSED
        bne_    count

; Each voice gets a pitch and two volumes by its phase.
        mov_x_i 7
voice:  mov_a_dx PHASE
        clrc
        adc_a_mx speeds
        mov_dx_a PHASE
        bpl_    rising
        eor_a_i $FF
rising: mov_d_a BEND
        lsr_a
        lsr_a
        lsr_a
        clrc
        adc_a_dx PITCH_LOW              ; at most 15 above the note
        mov_d_a LOW
        mov_a_dx PITCH_HIGH
        adc_a_i 0
        mov_y_a
        mov_a_x                         ; voice X's pitch: registers X2 and X3
        xcn_a
        or_a_i  2
        mov_d_a $F2
        mov_d_d $F3, LOW
        inc_d   $F2
        mov_d_y $F3
        mov_a_x                         ; its volumes: registers X0 and X1
        xcn_a
        mov_d_a $F2
        mov_a_d BEND
        lsr_a
        lsr_a
        clrc
        adc_a_i 8                       ; 8 to 39 to the left
        mov_d_a $F3
        inc_d   $F2
        eor_a_i $FF
        setc
        adc_a_i 47                      ; and 47 less that to the right
        mov_d_a $F3
        dec_x
        bpl_    voice
        bra_    tick

; A step: a voice begins the next note of the part that the console asks for.
play:   inc_d   STEP
        mov_a_d STEP
        mov_d_a $F5                     ; the console reads it
part:   mov_a_d $F4                     ; the part, read twice: the console may write it in just that cycle
        cmp_a_d $F4
        bne_    part
        and_a_i 3
        asl_a
        asl_a
        asl_a
        mov_d_a LOW
        mov_a_d STEP
        and_a_i 7
        mov_x_a                         ; the voice
        or_a_d  LOW
        mov_y_a
        mov_a_my notes
        mov_dx_a PITCH_LOW
        mov_a_my notes+32
        mov_dx_a PITCH_HIGH
        mov_d_i $F2, $4C
        mov_a_mx bits
        mov_d_a $F3                     ; KON
        ret

bits:   .byte   1, 2, 4, 8, 16, 32, 64, 128
phases: .byte   0, 32, 64, 96, 128, 160, 192, 224
speeds: .byte   1, 2, 3, 1, 2, 3, 1, 2

registers:
        .byte   $6C, $20                ; FLG: sound on; no echo yet
        .byte   $5C, $00                ; KOFF
        .byte   $0C, $50, $1C, $50      ; main volume
        .byte   $2C, $30, $3C, $D0      ; echo volume, the right one turned
        .byte   $0D, $40                ; echo feedback
        .byte   $4D, $FF, $6D, $40, $7D, $06    ; echo: all voices, at 4000, 96 ms
        .byte   $0F, $40, $1F, $18, $2F, $10, $3F, $08  ; FIR: eight taps
        .byte   $4F, $FC, $5F, $08, $6F, $F8, $7F, $04
        .byte   $2D, $00, $3D, $00      ; no pitch modulation, no noise
        .byte   $5D, >directory         ; DIR
        .repeat 8, v
        .byte   v * 16 + 4, v & 1       ; triangle and square in turn
        .byte   v * 16 + 5, $8A, v * 16 + 6, $EE        ; ADSR: it fades slowly
        .endrepeat
        .byte   $6C, $00                ; FLG: echo on
        .byte   $FF

; Four parts of eight notes, one for each voice: first the low bytes of all pitches, then the high ones. The waves have 16
; samples, so that 1000h is 2,000 Hz.
.define one   225, 338, 451, 536, 675, 901, 1072, 1350  ; A minor
.define two   179, 268, 358, 451, 536, 715, 901, 1072   ; F
.define three 268, 401, 536, 675, 803, 1072, 1350, 1606 ; C
.define four  201, 301, 401, 506, 601, 803, 1011, 1203  ; G
notes:  .lobytes one, two, three, four
        .hibytes one, two, three, four
