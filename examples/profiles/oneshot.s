; ONE SHOT: samples whose last block has the end bit and not the loop bit. The sound processor looks whether a block is
; heard. Afterwards a sample of eight blocks sounds three times: with 32,000, 16,000 and 8,000 samples a second.

.include "profiles.inc"
.import __SOUND_LOAD__, __SOUND_SIZE__

.segment "ZEROPAGE"
heard:  .res 3

.segment "CODE"
.a8
.i16
        say     4, 3, "BLOCKS THAT ARE HEARD"
        say     6, 3, "WAITING"
        jsr     show
        ldx     #.loword(__SOUND_LOAD__)
        ldy     #.loword(__SOUND_SIZE__)
        jsr     upload
:       lda     APUIO0
        cmp     #$99
        bne     :-
        ldx     APUIO1
        stx     heard
        lda     APUIO3
        sta     heard+2
        jsr     blank
        say     6, 3, "END WITHOUT LOOP, FIRST: "
        lda     heard
        jsr     digits
        say     8, 3, "                   LAST: "
        lda     heard+1
        jsr     digits
        say     10, 3, "END WITH LOOP:           "
        lda     heard+2
        jsr     digits
        jsr     show
        stp

ignore: rti

profile_header "PROFILE: ONE SHOT    ", $01, ignore
