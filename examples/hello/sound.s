; The program of the sound processor: a tune of four notes on voice 0, and a beep on voice 1 for each new number at
; port 0. It lies in the cartridge, and runs at 0200 of the sound processor's own memory.

.include "spc700.inc"

.export begin

.segment "SOUND"

WAIT = $10                              ; ticks until the next note
NOTE = $11                              ; its number
LAST = $12                              ; the number of the last beep
KEYS = $13                              ; voices to be started

; The directory comes first, since it has to begin at a page: 0200.
directory:
        .word   wave, wave              ; source 0: where it begins, and where it goes on
wave:   .byte   $B3                     ; a block of BRR: shift 11, no filter, loop, end
        .byte   $02, $46, $76, $42, $0E, $CA, $9A, $CE  ; 0 2 4 6 7 6 4 2 0 -2 -4 -6 -7 -6 -4 -2

begin:  mov_x_i 0
setup:  mov_a_mx registers              ; registers of the S-DSP: number, value
        bmi_    ready
        mov_d_a $F2
        inc_x
        mov_a_mx registers
        mov_d_a $F3
        inc_x
        bra_    setup
ready:  mov_d_i WAIT, 1
        mov_d_i NOTE, 0
        mov_d_i LAST, 0
        mov_d_i $FA, 160                ; timer 0: 160 times 125 microseconds, so fifty ticks a second
        mov_d_i $F1, 1                  ; timer 0 on, the boot ROM away

tick:   mov_a_d $FD                     ; ticks since the last look
        beq_    tick
        mov_d_i KEYS, 0

        mov_a_d $F4                     ; port 0, read twice: the console may write it in just that cycle
        cmp_a_d $F4
        bne_    tune
        cmp_a_d LAST
        beq_    tune
        mov_d_a LAST
        mov_d_i KEYS, 2                 ; voice 1

tune:   dec_d   WAIT
        bne_    start
        mov_d_i WAIT, 12                ; a note each 240 ms
        mov_a_d NOTE
        inc_d   NOTE
        and_a_i 7
        asl_a
        mov_x_a
        mov_d_i $F2, $02                ; the pitch of voice 0
        mov_a_mx notes
        mov_d_a $F3
        mov_d_i $F2, $03
        mov_a_mx notes+1
        mov_d_a $F3
        or_d_i  KEYS, 1                 ; voice 0

; Keys of both voices are written at once, and no oftener than each tick: of two writes within some 64 cycles the
; chip sees only the second.
start:  mov_a_d KEYS
        beq_    tick
        mov_d_i $F2, $4C
        mov_d_a $F3                     ; KON
        bra_    tick

registers:
        .byte   $6C, $20                ; FLG: sound on, no echo
        .byte   $5C, $00                ; KOFF
        .byte   $0C, $60, $1C, $60      ; main volume
        .byte   $2C, $00, $3C, $00      ; echo volume
        .byte   $2D, $00, $3D, $00, $4D, $00    ; no pitch modulation, noise or echo
        .byte   $5D, >directory         ; DIR: the page of the directory
        .byte   $00, $50, $01, $50      ; voice 0: volume left and right
        .byte   $04, $00                ; source 0
        .byte   $05, $8F, $06, $F2      ; attack at once, then it fades
        .byte   $10, $30, $11, $30      ; voice 1: the same, at a fixed pitch
        .byte   $12, <1100, $13, >1100
        .byte   $14, $00, $15, $8F, $16, $F8
        .byte   $FF

; The wave has 16 samples and is heard 2,000 times a second at the pitch 1000h.
.define pitch(centihertz) .word (centihertz) * 256 / 12500
notes:  pitch   26163                   ; C
        pitch   32963                   ; E
        pitch   39200                   ; G
        pitch   52325                   ; C
        pitch   44000                   ; A
        pitch   39200                   ; G
        pitch   32963                   ; E
        pitch   39200                   ; G
