; FIELD: waits 16 times until bit 7 of STAT78, the field, is 1 and then 0. Afterwards the backdrop shows the field of
; each frame: blue for 0, green for 1.

.include "profiles.inc"

.segment "CODE"
.a8
.i16
        say     4, 3, "WAITING FOR FIELDS"
        jsr     show
        ldx     #16
again:  bit     STAT78
        bpl     again
:       bit     STAT78
        bmi     :-
        dex
        bne     again
        jsr     blank
        say     4, 3, "16 FIELDS SEEN    "
        jsr     show
each:   jsr     next_blank
        ldx     #$02A0                  ; green; blank comes in the frame before the one that shows it
        bit     STAT78
        bpl     :+
        ldx     #$5000
:       stz     CGADD
        rep     #$20
        txa
        sep     #$20
        sta     CGDATA
        xba
        sta     CGDATA
        bra     each

ignore: rti

profile_header "PROFILE: FIELD       ", $01, ignore
