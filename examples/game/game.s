; STAR HARVEST: a small game for one or two players. Each flies a ship over a landscape that scrolls, gathers stars,
; shoots rocks or avoids them, and has a minute to gather more than the other. It is the cartridge that this project
; shows and tests with: the sound processor gets its program through the boot ROM, both pads are read, the picture has
; three backgrounds that scroll at speeds of their own, objects, and HDMA.
;
; This file has the start, the main loop and the vertical blank; play.s the game, picture.s what is drawn, music.s the
; program of the sound processor.

.include "game.inc"
.import begin_music, __SOUND_LOAD__, __SOUND_SIZE__, __SOUND_RUN__

.segment "ZEROPAGE"
frame:    .res 2                        ; frames since the start
state:    .res 2
ready:    .res 2                        ; not zero: the next frame is made, and may be moved to the picture
held:     .res 4                        ; what is held on pad 1 and pad 2
before:   .res 4
pressed:  .res 4                        ; what is held and wasn't in the frame before
scroll:   .res 2                        ; how far the ground has moved, in pixels
sound:    .res 2                        ; the sound of this frame, or zero
sounds:   .res 2                        ; how many there were

.segment "BSS"
oam:      .res 544
text:     .res 2048                     ; the map of BG3: 32 by 32 entries
waves:    .res 10                       ; HDMA: how the hills and the ground scroll

.segment "CODE"

reset:  sei
        clc
        xce
        rep     #$38
        ldx     #$1FFF
        txs
        lda     #0
        tcd
        sep     #$20
        stz     NMITIMEN
        stz     HDMAEN
        lda     #$80
        sta     INIDISP                 ; forced blank

        ldx     #$33                    ; registers of the picture: zeros, twice
:       stz     $2100,x
        stz     $2100,x
        dex
        bne     :-
        lda     #$E0
        sta     COLDATA
        lda     #$30
        sta     CGWSEL
        lda     #$FF
        sta     WRIO

        lda     #$80
        sta     VMAIN
        ldx     #0
        stx     VMADDL
        dma     $09, VMDATAL, zero, 0           ; VRAM
        stz     CGADD
        dma     $08, CGDATA, zero, 512          ; CGRAM
        ldx     #0
        stx     OAMADDL
        dma     $08, OAMDATA, zero, 544         ; OAM
        ldx     #0
        stx     WMADDL
        stz     WMADDL+2
        dma     $08, WMDATA, zero, $2000        ; work RAM, as much as is used

; The program of the sound processor, by the protocol of its boot ROM (examples/hello/hello.s explains each step).
        ldx     #$BBAA
:       cpx     APUIO0
        bne     :-
        ldx     #__SOUND_RUN__
        stx     APUIO2
        lda     #1
        sta     APUIO1
        lda     #$CC
        sta     APUIO0
:       cmp     APUIO0
        bne     :-
        ldx     #0
@byte:  lda     f:__SOUND_LOAD__,x
        sta     APUIO1
        txa
        sta     APUIO0
:       cmp     APUIO0
        bne     :-
        inx
        cpx     #__SOUND_SIZE__
        bne     @byte
        ldx     #begin_music
        stx     APUIO2
        stz     APUIO1
        adc     #1
        bne     :+
        inc
:       sta     APUIO0
:       cmp     APUIO0
        bne     :-
        stz     APUIO0                  ; port 0 counts sounds, port 1 says which, port 2 whether there is music
        stz     APUIO2

        rep     #$20
        jsr     make_picture
        jsr     make_land
        lda     #$F0F0                  ; objects that aren't used are below the picture: Y is 240
        ldx     #$01FE
:       sta     oam,x
        dex
        dex
        bpl     :-
        jsr     begin_title
        sep     #$20

        lda     #$03                    ; HDMA: channel 1 the colours of the sky, CGADD twice and CGDATA twice
        sta     DMAP0+$10
        lda     #<CGADD
        sta     BBAD0+$10
        ldx     #sky
        stx     A1T0L+$10
        stz     A1B0+$10
        lda     #$02                    ; channel 2 how BG1 scrolls, BG1HOFS twice
        sta     DMAP0+$20
        lda     #<BG1HOFS
        sta     BBAD0+$20
        ldx     #waves
        stx     A1T0L+$20
        lda     #$7E
        sta     A1B0+$20
        lda     RDNMI
        lda     #$81
        sta     NMITIMEN                ; NMI, auto-read
        inc     ready                   ; the first vertical blank moves the title there
        wai
        lda     #$0F
        sta     INIDISP
        rep     #$20

; ---------------------------------------------------------------------------------------------------------------
; Once a frame: after the NMI that moved the last one to the picture.
main:   wai
        lda     ready
        bne     main
        ldx     #2
:       lda     before,x
        eor     #$FFFF
        and     held,x
        sta     pressed,x
        lda     held,x
        sta     before,x
        dex
        dex
        bpl     :-
        ldx     state
        jsr     (states,x)
        sep     #$20
        lda     sound                   ; a sound: first which, then a new number
        beq     :+
        sta     APUIO1
        inc     sounds
        lda     sounds
        sta     APUIO0
:       stz     sound
        lda     state                   ; music while the game goes on
        cmp     #PAUSE
        beq     :+
        lda     #1
        bra     :++
:       lda     #0
:       sta     APUIO2
        rep     #$20
        inc     frame
        inc     ready
        bra     main

states: .word   title, play, pause, over

; Play goes on at the next START.
pause:  lda     pressed
        ora     pressed+2
        and     #BUTTON_START
        beq     :+
        lda     #PLAY
        sta     state
        lda     #SOUND_START
        sta     sound
        ldx     #text+2*(32*13+8)       ; the word goes
        jsr     clear_big
:       rts

; The end is shown until START, but for two seconds at least.
over:   lda     ticks
        beq     :+
        dec     ticks
        rts
:       lda     pressed
        ora     pressed+2
        and     #BUTTON_START
        beq     :+
        jmp     begin_title
:       rts

; Takes two rows of sixteen letters' width away at X.
clear_big:
        ldy     #16
:       stz     a:0,x
        stz     a:64,x
        inx
        inx
        dey
        bne     :-
        rts

; ---------------------------------------------------------------------------------------------------------------
; Vertical blank: what was made is moved to the picture, if all of it was made. Then the pads, whose auto-read is over
; by then: the objects alone take longer.
nmi:    rep     #$30
        pha
        phx
        phy
        sep     #$20
        lda     RDNMI
        lda     ready
        beq     :+
        ldx     #0
        stx     OAMADDL
        dma     $00, OAMDATA, oam, 544
        ldx     #TEXT_MAP
        stx     VMADDL
        dma     $01, VMDATAL, text, 1792
        rep     #$20
        jsr     nmi_picture
        sep     #$20
        lda     #6
        sta     HDMAEN                  ; channels 1 and 2
        stz     ready
:       lda     #1
:       bit     HVBJOY                  ; until the auto-read is over
        bne     :-
        rep     #$20
        lda     JOY1L
        sta     held
        lda     JOY2L
        sta     held+2
        ply
        plx
        pla
        rti

ignore: rti

zero:   .word   0

; The sky: colour 0 for eight lines each, from night to dusk.
sky:    .repeat 24, i
        .byte   8, 0, 0
        .word   ((9 + i * 8 / 24) << 10) | ((i * i * 14 / 576) << 5) | (2 + i * 27 / 24)
        .endrepeat
        .byte   1, 0, 0
        .word   $7FFF & ((9 << 10) | (10 << 5) | 20)
        .byte   0

.segment "HEADER"
        .byte   "STAR HARVEST         "
        .byte   $20, $00, $05, $00, $01, $00, $00
        .word   $FFFF, $0000                    ; complement and checksum: checksum.py writes them
        .word   0, 0, ignore, ignore, ignore, nmi, 0, ignore
        .word   0, 0, ignore, 0, ignore, ignore, reset, ignore
