; KEY OFF: KOFF is set for 42 cycles. The sound processor does this 64 times, a cycle later each time against the
; samples, and counts the notes that go on all the same.

.include "profiles.inc"
.import __SOUND_LOAD__, __SOUND_SIZE__

.segment "ZEROPAGE"
held:   .res 1

.segment "CODE"
.a8
.i16
        say     4, 3, "KOFF FOR 42 CYCLES, 64 TIMES"
        say     6, 3, "WAITING"
        jsr     show
        ldx     #.loword(__SOUND_LOAD__)
        ldy     #.loword(__SOUND_SIZE__)
        jsr     upload
:       lda     APUIO0
        cmp     #$99
        bne     :-
        lda     APUIO1
        sta     held
        jsr     blank
        say     6, 3, "NOTES THAT GO ON: "
        lda     held
        jsr     hex
        jsr     show
        stp

ignore: rti

profile_header "PROFILE: KEY OFF     ", $01, ignore
