; HIRES: letters over a blue backdrop in high resolution, while the fixed colour is black. There are four pictures of 30
; frames: mode 5 with letters on both screens, and with an empty sub screen; then the same in mode 0 with pseudo high
; resolution.

.include "profiles.inc"

.segment "CODE"
.a8
.i16
        ldx     #TEXT
        stx     VMADDL
        ldx     #1024
empty:  lda     #2                      ; two letters that are empty
        sta     VMDATAL
        stz     VMDATAL+1
        dex
        bne     empty
        ldx     #TEXT+32*6
        stx     VMADDL
        ldx     #0
fill:   txa                             ; letters in pairs, since a tile of mode 5 is two letters wide: 16 in a row
        and     #$1F
        asl
        sta     VMDATAL
        stz     VMDATAL+1
        inx
        cpx     #32*12
        bne     fill
        lda     #>TEXT
        sta     BG2SC
        lda     #$11 * (LETTERS / $1000)
        sta     BG12NBA
        stz     CGADD
        stz     CGDATA
        lda     #$3C
        sta     CGDATA                  ; the backdrop: blue

        lda     #5
        sta     BGMODE
        lda     #2
        sta     TM                      ; BG2, which has four colours
        sta     TS
        jsr     show
        jsr     frames
        stz     TS
        jsr     frames
        stz     BGMODE
        lda     #8
        sta     SETINI
        lda     #1
        sta     TM
        sta     TS
        jsr     frames
        stz     TS
        stp

frames: ldx     #30
:       jsr     next_blank
        dex
        bne     :-
        rts

ignore: rti

profile_header "PROFILE: HIRES       ", $01, ignore
