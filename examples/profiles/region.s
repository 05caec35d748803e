; REGION: bit 4 of STAT78 says which console this is. The header says Europe, for an emulator that goes by it.

.include "profiles.inc"

.segment "CODE"
.a8
.i16
        say     4, 3, "STAT78 BIT 4 SAYS:"
        lda     STAT78
        and     #$10
        bne     pal
        say     6, 3, "NTSC, 60 HZ"
        jsr     show
        stp
pal:    say     6, 3, "PAL, 50 HZ"
        jsr     show
        stp

ignore: rti

profile_header "PROFILE: REGION      ", $02, ignore
