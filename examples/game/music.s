; The program of the sound processor: a tune of eight bars on four voices, and five sounds on two more.
;
; The console writes to port 1 which sound, then a new number to port 0; port 2 has 1 while there is music. Everything
; is done in ticks of timer 0, 125 a second: keys of voices are written once a tick at most, so none of them is lost.

.include "spc700.inc"

.export begin_music

TICKS = 14                              ; ticks a row; sixteen rows are a bar of the tune

LAST  = $10                             ; the number of the last sound
WAIT  = $11                             ; ticks until the next row
ROW   = $12                             ; of the pattern
BAR   = $13                             ; of the tune
KEYS  = $14                             ; voices to be started in this tick
TRACK = $15                             ; 0 to 3: melody, chords, bass, drums
AT    = $16                             ; (2) a pattern
NOTE  = $18
SLIDE = $19                             ; (2) what the pitch of the sounds' voice gains each tick
PITCH = $1B                             ; (2) that pitch
LEFT  = $1D                             ; ticks for which it goes on
SECOND = $1E                            ; of a star: ticks until its second note

.segment "SOUND"

; The directory comes first, since it has to begin at a page.
directory:
        .word   square, square
        .word   pulse, pulse
        .word   triangle, triangle
square: .byte   $A3, $77, $77, $77, $77, $99, $99, $99, $99     ; shift 10, loop, end: 7 and -7
pulse:  .byte   $A3, $77, $77, $EE, $EE, $ED, $ED, $EE, $DD
triangle:
        .byte   $B3, $02, $46, $76, $42, $0E, $CA, $9A, $CE

begin_music:
        mov_x_i 0
setup:  mov_a_mx registers
        bmi_    ready
        mov_d_a $F2
        inc_x
        mov_a_mx registers
        mov_d_a $F3
        inc_x
        bra_    setup
ready:  mov_x_i $0F
        mov_a_i 0
clear:  mov_dx_a LAST
        dec_x
        bpl_    clear
        inc_d   WAIT
        mov_d_i $FA, 64                 ; timer 0: 64 times 125 microseconds
        mov_d_i $F1, 1

tick:   mov_a_d $FD
        beq_    tick
        mov_d_i KEYS, 0
        mov_a_d $F4                     ; a new number? Read twice, since the console may write it in just that cycle
        cmp_a_d $F4
        bne_    slide
        cmp_a_d LAST
        beq_    slide
        mov_d_a LAST
        call    start_sound
slide:  call    go_on_sound
        mov_a_d $F6                     ; music?
        and_a_i 1
        beq_    keys
        dec_d   WAIT
        bne_    keys
        mov_d_i WAIT, TICKS
        call    next_row
keys:   mov_a_d KEYS
        beq_    tick
        mov_d_i $F2, $4C                ; KON
        mov_d_a $F3
        bra_    tick

; ---------------------------------------------------------------------------------------------------------------
; A row of the tune: each track's pattern of this bar has a byte for it, a note or nothing.
next_row:
        mov_d_i TRACK, 3
track:  mov_a_d TRACK                   ; the pattern: bars, eight for each track
        asl_a
        asl_a
        asl_a
        clrc
        adc_a_d BAR
        mov_x_a
        mov_a_mx bars
        mov_y_i 16
        mul_ya
        clrc
        adc_a_i <patterns
        mov_d_a AT
        mov_a_y
        adc_a_i >patterns
        mov_d_a AT+1
        mov_y_d ROW
        mov_a_idy AT
        beq_    next_track
        call    play_note
next_track:
        dec_d   TRACK
        bpl_    track
        inc_d   ROW
        mov_a_d ROW
        cmp_a_i 16
        bne_    :+
        mov_d_i ROW, 0
        mov_a_d BAR
        inc_a
        and_a_i 7
        mov_d_a BAR
:       ret

; Note A on the voice of the track. Of the drums it is not a pitch but how long the noise lasts.
play_note:
        mov_d_a NOTE
        mov_x_d TRACK
        mov_a_mx bits
        or_a_d  KEYS
        mov_d_a KEYS
        cmp_x_i 3
        beq_    drum
        mov_a_d NOTE
        asl_a
        mov_y_a
        mov_a_x                         ; voice X's pitch: registers X2 and X3
        xcn_a
        or_a_i  2
        mov_d_a $F2
        mov_a_my pitches-2
        mov_d_a $F3
        inc_d   $F2
        mov_a_my pitches-1
        mov_d_a $F3
        ret
drum:   mov_d_i $F2, $36                ; ADSR2: how fast it fades
        mov_a_d NOTE
        mov_d_a $F3
        ret

bits:   .byte   1, 2, 4, 8

; ---------------------------------------------------------------------------------------------------------------
; A sound begins: voice 4 has a pitch that slides, voice 5 has noise.
start_sound:
        mov_a_d $F5
        and_a_i 7
        asl_a
        asl_a
        asl_a
        mov_x_a                         ; eight bytes: pitch, slide, ticks, second note, fading, keys
        mov_a_mx sounds
        mov_d_a PITCH
        mov_a_mx sounds+1
        mov_d_a PITCH+1
        mov_a_mx sounds+2
        mov_d_a SLIDE
        mov_a_mx sounds+3
        mov_d_a SLIDE+1
        mov_a_mx sounds+4
        mov_d_a LEFT
        mov_a_mx sounds+5
        mov_d_a SECOND
        mov_d_i $F2, $46                ; ADSR2 of both
        mov_a_mx sounds+6
        mov_d_a $F3
        mov_d_i $F2, $56
        mov_d_a $F3
        mov_a_mx sounds+7
        or_a_d  KEYS
        mov_d_a KEYS
        ret

go_on_sound:
        mov_a_d LEFT
        beq_    @end
        dec_d   LEFT
        movw_ya_d PITCH
        addw_ya_d SLIDE
        movw_d_ya PITCH
        mov_a_d SECOND                  ; the second note is a fourth above the first
        beq_    @pitch
        dec_d   SECOND
        bne_    @pitch
        mov_a_d PITCH                   ; a fourth: a third more
        clrc
        adc_a_i $80
        mov_d_a PITCH
        mov_a_d PITCH+1
        adc_a_i 3
        mov_d_a PITCH+1
        or_d_i  KEYS, $10
@pitch: mov_d_i $F2, $42
        mov_a_d PITCH
        mov_d_a $F3
        mov_d_i $F2, $43
        mov_a_d PITCH+1
        mov_d_a $F3
@end:   ret

; ---------------------------------------------------------------------------------------------------------------
registers:
        .byte   $6C, $20                ; FLG: no echo
        .byte   $5C, $00                ; KOFF
        .byte   $0C, $60, $1C, $60, $2C, $00, $3C, $00          ; main volume, echo volume
        .byte   $2D, $00, $4D, $00, $5D, >directory             ; PMON, EON, DIR
        .byte   $3D, $28                                        ; NON: noise for voices 3 and 5
        .byte   $00, $40, $01, $30, $04, $01, $05, $8F, $06, $EE        ; melody: pulse
        .byte   $10, $14, $11, $24, $14, $00, $15, $8F, $16, $F2        ; chords: square
        .byte   $20, $2A, $21, $2A, $24, $02, $25, $8F, $26, $EE        ; bass: triangle
        .byte   $30, $0C, $31, $0C, $34, $00, $35, $8F, $36, $F8        ; drums: noise
        .byte   $40, $38, $41, $38, $44, $01, $45, $8F, $46, $F4        ; sounds: pulse
        .byte   $50, $24, $51, $24, $54, $00, $55, $8F, $56, $F2        ; and noise
        .byte   $6C, $3C                ; FLG: how fast the noise is
        .byte   $FF

; Sounds 1 to 5: pitch, slide a tick, ticks, ticks to a second note, ADSR2, voices.
.macro effect first, gain, length, after, fading, voices
        .word   first, .loword(gain)
        .byte   length, after, fading, voices
.endmacro
sounds: .res    8
        effect  3600, -180, 16, 0, $F7, $10     ; a shot falls
        effect  2700, 0, 40, 8, $F3, $10        ; a star has two notes
        effect  600, -20, 24, 0, $EF, $30       ; a burst is noise
        effect  1400, -30, 40, 0, $EC, $30      ; a hit is longer
        effect  1072, 24, 40, 10, $F0, $10      ; start and pause rise

; Pitches: the wave has 16 samples, so that 1000h is 2,000 Hz. Notes from 1, C2, to 60, B6.
.macro octave shift
        .repeat 12, i
        .word   .ident(.sprintf("tone%d", i)) >> shift
        .endrepeat
.endmacro
tone0 = 4286 * 2                        ; C8: 4,186 Hz, times 2.048
tone1 = 4541 * 2
tone2 = 4811 * 2
tone3 = 5097 * 2
tone4 = 5400 * 2
tone5 = 5721 * 2
tone6 = 6061 * 2
tone7 = 6422 * 2
tone8 = 6804 * 2
tone9 = 7208 * 2
tone10 = 7637 * 2
tone11 = 8091 * 2
pitches:
        octave  6
        octave  5
        octave  4
        octave  3

C2 = 1
D2 = 3
E2 = 5
F2 = 6
G2 = 8
A2 = 10
B2 = 12
C3 = 13
D3 = 15
E3 = 17
F3 = 18
G3 = 20
A3 = 22
B3 = 24
C4 = 25
D4 = 27
E4 = 29
F4 = 30
G4 = 32
A4 = 34
B4 = 36
C5 = 37
D5 = 39
E5 = 41
F5 = 42
G5 = 44
A5 = 46
HAT   = $FC                             ; of the drums: ADSR2
SNARE = $F6

; Patterns of each track in eight bars.
bars:   .byte   0, 1, 2, 3, 4, 5, 6, 7  ; melody
        .byte   8, 9, 10, 11, 8, 9, 11, 8
        .byte   12, 13, 14, 15, 12, 13, 15, 12
        .byte   16, 16, 16, 17, 16, 16, 16, 17

patterns:
        .byte   A4,0,C5,0,E5,0,0,D5,C5,0,B4,0,A4,0,E4,0         ; 0
        .byte   F4,0,A4,0,C5,0,0,B4,A4,0,G4,0,F4,0,C5,0
        .byte   G4,0,C5,0,E5,0,0,F5,E5,0,D5,0,C5,0,G4,0
        .byte   D5,0,B4,0,G4,0,0,A4,B4,0,C5,0,D5,0,B4,0
        .byte   A4,0,C5,0,E5,0,A5,0,G5,0,E5,0,C5,0,E5,0         ; 4
        .byte   F5,0,0,E5,C5,0,A4,0,F4,0,A4,0,C5,0,F5,0
        .byte   E5,0,D5,0,B4,0,G4,0,D5,0,B4,0,G4,0,B4,0
        .byte   A4,0,0,0,E5,0,C5,0,A4,0,0,0,0,0,0,0
        .byte   A3,0,C4,0,E4,0,C4,0,A3,0,C4,0,E4,0,C4,0         ; 8
        .byte   A3,0,C4,0,F4,0,C4,0,A3,0,C4,0,F4,0,C4,0
        .byte   G3,0,C4,0,E4,0,C4,0,G3,0,C4,0,E4,0,C4,0
        .byte   G3,0,B3,0,D4,0,B3,0,G3,0,B3,0,D4,0,B3,0
        .byte   A2,0,0,A2,A3,0,A2,0,A2,0,0,A2,A3,0,E3,0         ; 12
        .byte   F2,0,0,F2,F3,0,F2,0,F2,0,0,F2,F3,0,C3,0
        .byte   C3,0,0,C3,G3,0,C3,0,C3,0,0,C3,G3,0,E3,0
        .byte   G2,0,0,G2,G3,0,G2,0,G2,0,0,G2,G3,0,D3,0
        .byte   HAT,0,HAT,0,SNARE,0,HAT,0,HAT,0,HAT,HAT,SNARE,0,HAT,0   ; 16
        .byte   HAT,0,HAT,0,SNARE,0,HAT,0,HAT,0,SNARE,0,SNARE,SNARE,SNARE,SNARE
