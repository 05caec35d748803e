; LATCH: the counters of the beam are latched by bit 7 of 4201 when it falls, and by a read of 2137 only while it is 1.

.include "profiles.inc"

.segment "ZEROPAGE"
lines:  .res 3

.segment "CODE"
.a8
.i16
        say     4, 3, "LINES THAT WERE LATCHED"
        jsr     show
        lda     #100
        jsr     line_reached
        ldx     #367                    ; ten lines on
        jsr     wait
        lda     #$7F
        sta     WRIO                    ; bit 7 falls: latched
        jsr     latched
        sta     lines
        ldx     #367
        jsr     wait
        lda     SLHV                    ; bit 7 is 0: this latches nothing
        jsr     latched
        sta     lines+1
        lda     #$FF
        sta     WRIO                    ; bit 7 rises: nothing
        ldx     #367
        jsr     wait
        lda     SLHV                    ; latched
        jsr     latched
        sta     lines+2
        jsr     blank
        say     6, 3, "4201, BIT 7 FALLS: "
        lda     lines
        jsr     hex
        say     8, 3, "2137 WHILE IT IS 0: "
        lda     lines+1
        jsr     hex
        say     10, 3, "2137 WHILE IT IS 1: "
        lda     lines+2
        jsr     hex
        jsr     show
        stp

wait:   dex
        bne     wait
        rts

latched:
        lda     STAT78
        lda     OPVCT
        rts

ignore: rti

profile_header "PROFILE: LATCH       ", $01, ignore
