; AUTO-READ: waits in each frame until the auto-read of the pads has begun (HVBJOY bit 0 is 1) and until it is over (0).
; While it is busy JOY1 still has its old word. Later 16 frames are counted so. Pad 1 has to hold A and R.

.include "profiles.inc"

.segment "ZEROPAGE"
old:    .res 2                          ; what JOY1 has while the first auto-read is busy
new:    .res 2                          ; and when it is over

.segment "CODE"
.a8
.i16
        say     4, 3, "AUTO-READ, PAD 1: A AND R"
        say     7, 3, "WAITING FOR BIT 0 OF 4212"
        jsr     show
        lda     #100
        jsr     line_reached
        lda     #1
        sta     NMITIMEN                ; auto-read on, in the picture; no NMI
        jsr     begun
        ldy     JOY1L
        sty     old
        jsr     over
        ldy     JOY1L
        sty     new
        ldx     #16
again:  jsr     begun
        jsr     over
        dex
        bne     again
        jsr     blank
        say     7, 3, "16 AUTO-READS SEEN       "
        say     9, 3, "WHILE BUSY: "
        lda     old+1
        jsr     hex
        lda     old
        jsr     hex
        say     11, 3, "THEN:       "
        lda     new+1
        jsr     hex
        lda     new
        jsr     hex
        jsr     show
        stp

begun:  lda     HVBJOY
        and     #1
        beq     begun
        rts
over:   lda     HVBJOY
        and     #1
        bne     over
        rts

ignore: rti

profile_header "PROFILE: AUTO-READ   ", $01, ignore
