; HELLO: a cartridge to copy from. It clears the machine, gives the sound processor a program, draws text and two
; objects, which the two pads move, and answers buttons with a sound. Everything that is shown is moved in vertical
; blank: NMI, DMA of the objects and of a row of text, HDMA for the colours of the sky.
;
; Build it by `make`; README.md tells how it is played.

.p816
.smart  +                               ; the assembler follows SEP and REP
.include "snes.inc"

.segment "ZEROPAGE"
frame:  .res 2                          ; NMIs since the start
pads:   .res 4                          ; what is held on pad 1 and pad 2
before: .res 4                          ; what was held in the frame before
beeps:  .res 1                          ; a sound is asked for by a new number at port 0

OBJECTS = 2
TEXT    = $0400                         ; words of VRAM: the map of BG1, 32 by 32
LETTERS = $1000                         ; its tiles
FACES   = $2000                         ; the tiles of the objects

.segment "BSS"
oam:    .res 544                        ; what goes to OAM: 128 objects of 4 bytes, then two bits for each
row:    .res 64                         ; what goes to a row of the map

.segment "CODE"
.a8
.i16

; ---------------------------------------------------------------------------------------------------------------
; The start. Nothing may be read that was not written before: a console's memories and most of its registers hold
; anything at power on, and after a reset what they held before.
reset:  sei
        clc
        xce                             ; native mode
        rep     #$38                    ; A, X and Y of 16 bits, binary numbers
        ldx     #$1FFF
        txs                             ; the stack
        lda     #0
        tcd                             ; the direct page
        sep     #$20                    ; A of 8 bits from here on; X and Y stay at 16
        stz     NMITIMEN                ; no NMI, no timer, no auto-read
        stz     HDMAEN
        lda     #$80
        sta     INIDISP                 ; forced blank: the memories of the picture can be written

        ldx     #$33                    ; 2101 to 2133: zeros, twice, since many of them take two bytes
:       stz     $2100,x
        stz     $2100,x
        dex
        bne     :-
        lda     #1
        stz     M7A                     ; the matrix of mode 7: one to one
        sta     M7A
        stz     M7D
        sta     M7D
        lda     #$E0
        sta     COLDATA                 ; the fixed colour: black
        lda     #$30
        sta     CGWSEL                  ; no colour arithmetic
        lda     #$FF
        sta     WRIO

        lda     #$80
        sta     VMAIN                   ; a step after the high byte
        ldx     #0
        stx     VMADDL
        dma     $09, VMDATAL, zero, 0           ; VRAM: two registers, an address that stays, 65,536 bytes
        stz     CGADD
        dma     $08, CGDATA, zero, 512          ; CGRAM
        ldx     #0
        stx     OAMADDL
        dma     $08, OAMDATA, zero, 544         ; OAM
        ldx     #0
        stx     WMADDL
        stz     WMADDL+2
        dma     $08, WMDATA, zero, 0            ; work RAM, the first half and the second: stack and variables too
        lda     #1
        ldx     #0
        stx     WMADDL
        sta     WMADDL+2
        dma     $08, WMDATA, zero, 0

; ---------------------------------------------------------------------------------------------------------------
; The sound processor waits in its boot ROM, which takes a program byte by byte. It must not be interrupted for long.
        ldx     #$BBAA
:       cpx     APUIO0                  ; it is ready once ports 0 and 1 read AA and BB
        bne     :-
        ldx     #__SOUND_RUN__
        stx     APUIO2                  ; ports 2 and 3: where the block goes
        lda     #1
        sta     APUIO1                  ; not zero: a block follows
        lda     #$CC
        sta     APUIO0                  ; the order
:       cmp     APUIO0                  ; taken once it is read back
        bne     :-
        ldx     #0
@byte:  lda     f:__SOUND_LOAD__,x
        sta     APUIO1                  ; a byte
        txa
        sta     APUIO0                  ; its number, modulo 256
:       cmp     APUIO0
        bne     :-
        inx
        cpx     #__SOUND_SIZE__
        bne     @byte
        ldx     #begin
        stx     APUIO2                  ; where the program begins
        stz     APUIO1                  ; zero: go there
        adc     #1                      ; two more than the last number (the carry is set): that ends the block
        bne     :+
        inc                             ; but not zero
:       sta     APUIO0
:       cmp     APUIO0
        bne     :-
        stz     APUIO0                  ; from here on our own protocol: port 0 counts beeps

; ---------------------------------------------------------------------------------------------------------------
; The picture: letters, text, the objects' tiles, colours, registers.
        stz     VMAIN                   ; a step after the low byte: letters have one bit a pixel, plane 0,
        ldx     #LETTERS                ; and plane 1 stays empty
        stx     VMADDL
        dma     $00, VMDATAL, letters, 512
        lda     #$80
        sta     VMAIN
        ldx     #FACES                  ; objects of 16 by 16: tiles 0 and 1, and below them 16 and 17
        stx     VMADDL
        dma     $01, VMDATAL, face, 64
        ldx     #FACES+16*16
        stx     VMADDL
        dma     $01, VMDATAL, face+64, 64
        stz     CGADD
        dma     $00, CGDATA, text_colours, 8
        lda     #128                    ; the objects' colours begin at 128, 16 a palette
        sta     CGADD
        dma     $00, CGDATA, face_colours, 8
        lda     #128+16
        sta     CGADD
        dma     $00, CGDATA, face_colours+8, 8

        ldx     #TEXT+32*6+10
        ldy     #.loword(greeting)
        jsr     print
        ldx     #TEXT+32*21+4
        ldy     #.loword(advice)
        jsr     print

        stz     BGMODE                  ; mode 0: four backgrounds of four colours
        lda     #>TEXT
        sta     BG1SC
        lda     #LETTERS / $1000
        sta     BG12NBA
        lda     #$60 | FACES / $2000    ; objects of 16 and 32 pixels
        sta     OBSEL
        lda     #$11
        sta     TM                      ; objects and BG1

        lda     #$F0                    ; objects that aren't used lie below the picture: Y is 240
        ldx     #4*127
:       sta     oam+1,x
        dex
        dex
        dex
        dex
        bpl     :-
        ldx     #places
        ldy     #oam
        rep     #$20
        lda     #4*OBJECTS-1
        mvn     #0, #0                  ; the first ones, from a table; bank 0 to bank 0
        sep     #$20

        lda     #3                      ; HDMA of channel 1: CGADD twice, CGDATA twice: a colour for some lines
        sta     DMAP0+$10
        lda     #<CGADD
        sta     BBAD0+$10
        ldx     #sky
        stx     A1T0L+$10
        lda     #^sky
        sta     A1B0+$10

        lda     RDNMI                   ; forget an NMI of before
        lda     #$81
        sta     NMITIMEN                ; NMI and auto-read of the pads
        wai                             ; the first NMI moves all that is shown
        lda     #$0F
        sta     INIDISP                 ; the picture on, still in vertical blank

; ---------------------------------------------------------------------------------------------------------------
; The program, once a frame: WAI waits for the NMI.
main:   wai
        ldx     #0                      ; pad 1 moves the first object,
        ldy     #0
        jsr     move
        ldx     #2                      ; pad 2 the second
        ldy     #4
        jsr     move
        ldx     #row+2*10
        lda     pads+1
        jsr     write_hex               ; what is held, as a number
        lda     pads
        jsr     write_hex
        ldx     #row+2*18
        lda     pads+3
        jsr     write_hex
        lda     pads+2
        jsr     write_hex
        bra     main

; Moves the object at oam + Y by the pad at pads + X; B, Y, A and X ask for a beep.
move:   lda     pads+1,x
        lsr                             ; bits 8 to 11 of a pad: right, left, down, up
        bcc     :+
        pha
        lda     oam,y
        inc
        sta     oam,y
        pla
:       lsr
        bcc     :+
        pha
        lda     oam,y
        dec
        sta     oam,y
        pla
:       lsr
        bcc     :+
        pha
        lda     oam+1,y
        inc
        sta     oam+1,y
        pla
:       lsr
        bcc     :+
        lda     oam+1,y
        dec
        sta     oam+1,y
:       rep     #$20
        lda     before,x
        eor     #$FFFF
        and     pads,x                  ; what is held now and wasn't before
        and     #BUTTON_B|BUTTON_Y|BUTTON_A|BUTTON_X
        sep     #$20
        beq     :+
        inc     beeps
        lda     beeps
        sta     APUIO0
:       rts

; Writes two digits of A to the row at X, and goes on by two letters.
write_hex:
        pha
        lsr
        lsr
        lsr
        lsr
        jsr     :+
        pla
        and     #$0F
:       cmp     #10                     ; 0 to 9, then A to F: seven codes further on
        bcc     :+
        adc     #6                      ; and the carry, which is set
:       adc     #'0'-32
        sta     a:0,x
        inx
        inx
        rts

; Prints the text at Y, which a zero ends, to the word X of VRAM. Only in forced blank.
print:  stx     VMADDL
:       lda     a:0,y
        beq     :+
        sec
        sbc     #32
        sta     VMDATAL
        stz     VMDATAL+1
        iny
        bra     :-
:       rts

; ---------------------------------------------------------------------------------------------------------------
; Vertical blank. What is shown is moved first, while there is time; the pads have been read when that is over.
nmi:    rep     #$30
        pha
        phx
        phy
        sep     #$20
        lda     RDNMI                   ; the NMI was seen
        ldx     #0
        stx     OAMADDL
        dma     $00, OAMDATA, oam, 544
        ldx     #TEXT+32*12
        stx     VMADDL
        dma     $01, VMDATAL, row, 64
        lda     #2
        sta     HDMAEN                  ; channel 1, from the next frame on

        lda     #1                      ; the auto-read begins some lines into vertical blank and takes three. This waits
:       bit     HVBJOY                  ; for its end: where it hasn't begun yet, as in a shorter handler, wait for its
        bne     :-                      ; begin by time, not by this bit, which some emulators never show
        rep     #$20
        lda     pads
        sta     before
        lda     pads+2
        sta     before+2
        lda     JOY1L
        sta     pads
        lda     JOY2L
        sta     pads+2
        inc     frame
        ply
        plx
        pla
        rti                             ; P comes back from the stack, and the widths with it

ignore: rti

; ---------------------------------------------------------------------------------------------------------------
.segment "RODATA"
zero:   .word   0
greeting:
        .byte   "HELLO, SNES!", 0
advice: .byte   "PADS MOVE, BUTTONS BEEP", 0    ; (the letters that font.inc has)

places: .byte   96, 160, 0, $30                 ; across, down, tile, in front of all backgrounds with palette 0
        .byte   144, 160, 0, $32                ; and with palette 1

text_colours:                                   ; BBBBBGGGGGRRRRR
        .word   $0000, $7FFF, $0000, $0000
face_colours:
        .word   $0000, $0000, $1B7F, $7FFF      ; (none), black, yellow, white
        .word   $0000, $0000, $7E8C, $7FFF      ; (none), black, blue, white

; The sky: colour 0 for 8 lines each, 28 times, bluer from line to line.
sky:    .repeat 28, i
        .byte   8, 0, 0
        .word   (6 + i * 25 / 28) << 10 | (i / 2) << 5
        .endrepeat
        .byte   0

letters:
        .include "font.inc"
face:   .include "face.inc"

.segment "HEADER"
        .byte   "HELLO FROM CA65      "         ; FFC0: the title, 21 letters
        .byte   $20, $00, $05, $00              ; LoROM, ROM alone, 2^5 KiB, no RAM
        .byte   $01, $00, $00                   ; North America (NTSC), no maker, version 0
        .word   $FFFF, $0000                    ; complement and checksum: checksum.py writes them
        .word   0, 0, ignore, ignore, ignore, nmi, 0, ignore        ; native mode: COP, BRK, ABORT, NMI, -, IRQ
        .word   0, 0, ignore, 0, ignore, ignore, reset, ignore      ; emulation mode: COP, -, ABORT, NMI, RESET, IRQ

.import begin, __SOUND_LOAD__, __SOUND_RUN__, __SOUND_SIZE__
