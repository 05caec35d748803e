; VRAM: what the processor and DMA write to VRAM in the picture gets lost, also in line 0, but the address moves on. In
; forced blank all arrives.

.include "profiles.inc"

.segment "CODE"
.a8
.i16
        say     4, 3, "VRAM IN THE PICTURE"
        jsr     show
        lda     #100
        jsr     line_reached
        ldx     #TEXT+32*6+3
        stx     VMADDL
        ldy     #.loword(lost)
        jsr     word                    ; four letters in the picture,
        jsr     next_blank
        ldy     #.loword(kept)
        jsr     word                    ; and four behind them in vertical blank

        lda     #100
        jsr     line_reached
        ldx     #TEXT+32*8+3
        stx     VMADDL
        dma     $01, VMDATAL, lost_map, 8
        jsr     next_blank
        dma     $01, VMDATAL, kept_map, 8

        lda     #100
        jsr     line_reached
        lda     #$80
        sta     INIDISP                 ; forced blank in the picture
        ldx     #TEXT+32*10+3
        stx     VMADDL
        ldy     #.loword(kept)
        jsr     word
        lda     #$0F
        sta     INIDISP

        jsr     next_blank
:       bit     HVBJOY
        bmi     :-                      ; line 0, which is not shown, and not in vertical blank
        ldx     #TEXT+32*12+3
        stx     VMADDL
        ldy     #.loword(lost)
        jsr     word
        jsr     next_blank
        ldy     #.loword(kept)
        jsr     word
        stp

word:   ldx     #4
:       lda     a:0,y
        sec
        sbc     #32
        sta     VMDATAL
        stz     VMDATAL+1
        iny
        dex
        bne     :-
        rts

ignore: rti

.segment "RODATA"
lost:   .byte   "LOST"
kept:   .byte   "KEPT"
lost_map:
        .byte   'L'-32, 0, 'O'-32, 0, 'S'-32, 0, 'T'-32, 0
kept_map:
        .byte   'K'-32, 0, 'E'-32, 0, 'P'-32, 0, 'T'-32, 0

profile_header "PROFILE: VRAM        ", $01, ignore
