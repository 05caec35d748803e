; KEY ON: KON is written four times, for one voice each, with 5 cycles from write to write; and once for voice 0, then
; with 0. The sound processor does each 64 times, a cycle later each time against the samples, and counts the voices
; that sound.

.include "profiles.inc"
.import __SOUND_LOAD__, __SOUND_SIZE__

.segment "ZEROPAGE"
counts: .res 3

.segment "CODE"
.a8
.i16
        say     4, 3, "KON, 64 TIMES EACH"
        say     6, 3, "WAITING"
        jsr     show
        ldx     #.loword(__SOUND_LOAD__)
        ldy     #.loword(__SOUND_SIZE__)
        jsr     upload
:       lda     APUIO0
        cmp     #$99
        bne     :-
        ldx     APUIO1
        stx     counts
        lda     APUIO3
        sta     counts+2
        jsr     blank
        say     6, 3, "FOUR WRITES, VOICE 0: "
        lda     counts
        jsr     hex
        say     8, 3, "             VOICE 3: "
        lda     counts+1
        jsr     hex
        say     10, 3, "VOICE 0, THEN NONE:   "
        lda     counts+2
        jsr     hex
        jsr     show
        stp

ignore: rti

profile_header "PROFILE: KEY ON      ", $01, ignore
