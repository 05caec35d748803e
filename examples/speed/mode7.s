; MODE7: a cartridge to measure speed by. A plane in mode 7 turns in perspective. HDMA sets the matrix on each line from
; tables in work RAM, which the processor computes anew in each frame: two products a line by the multiplier.
;
; There are two pairs of tables. NMI shows one pair, while the loop writes the other one.

.include "speed.inc"

; Work RAM. Of each line the first table has M7A and M7B, the second one M7C and M7D, as two words.
FIRST  = $0400
SECOND = $0800
OTHER  = $0800                          ; from a table to the same one of the other pair
SCALES = $1400                          ; a word for each line: 64 times how wide a pixel of it is on the plane

LINES  = 112                            ; the lines of half a table: at most 127 have one byte of length
HALF   = 4*LINES
TURNS  = $80 | LINES                    ; so many lines, each with data of its own

.segment "ZEROPAGE"
frame:  .res 2                          ; NMIs since the start: the angle, 256 of them are a turn
shown:  .res 2                          ; which pair NMI shows: 0 or OTHER
centre: .res 2                          ; the column of the plane about which it turns
edge:   .res 2                          ; M7HOFS
cosine: .res 2                          ; 256 times the size, and 0000 or FFFF for the sign
cosine_sign: .res 2
sine:   .res 2
sine_sign: .res 2
later:  .res 2                          ; the factors of a line's second product
limit:  .res 2                          ; the end of the lines
number: .res 2

.segment "CODE"
.a8
.i16
reset:  begin_machine
        ldx     #0
        stx     frame
        stx     shown

; The plane: 128 rows of 128 tiles. Four rows are alike, then come other four tiles.
        stz     VMAIN                   ; a step after the low byte
        ldx     #0
        stx     VMADDL
        stz     DMAP0
        lda     #<VMDATAL
        sta     BBAD0
        stz     A1B0
        ldy     #0
row:    rep     #$20
        tya
        and     #$000C                  ; which of the four kinds of rows, times 4
        asl
        asl
        asl
        asl
        asl
        adc     #rows                   ; the carry is clear
        sta     A1T0L
        lda     #128
        sta     DAS0L
        sep     #$20
        lda     #1
        sta     MDMAEN
        iny
        cpy     #128
        bne     row

; The sixteen tiles, of 64 pixels each: pixel (x, y) of tile t has the colour 16 * t + (x eor y).
        lda     #$80
        sta     VMAIN                   ; a step after the high byte
        ldx     #0
        stx     VMADDL
pixel:  rep     #$20
        stx     number
        txa
        lsr
        lsr
        lsr
        eor     number
        and     #$0007
        sta     later
        txa
        and     #$03C0
        lsr
        lsr
        ora     later
        sep     #$20
        sta     VMDATAH
        inx
        cpx     #16*64
        bne     pixel

; The colours: those of the tiles, lighter by two for each step.
        stz     CGADD
        rep     #$20
        ldx     #0
colour: lda     colours,x
        ldy     #16
shade:  sep     #$20
        sta     CGDATA
        xba
        sta     CGDATA
        xba
        rep     #$20
        cpy     #9
        bcc     same
        clc
        adc     #$0842
same:   dey
        bne     shade
        inx
        inx
        cpx     #32
        bne     colour

; How wide a pixel of a line is on the plane: the divider gives 4096 / (line + 32), 128 at the top and 16 at the bottom.
        ldx     #0
scale:  lda     #4096
        sta     WRDIVL
        txa
        lsr
        adc     #32                     ; the carry is clear, since X is even
        sep     #$20
        sta     WRDIVB
        rep     #$20
        nop
        nop
        nop
        nop
        nop
        nop
        nop
        lda     RDDIVL
        sta     SCALES,x
        inx
        inx
        cpx     #4*LINES
        bne     scale

; Both pairs of tables: two lengths and an end.
        sep     #$20
        ldx     #0
length: lda     #TURNS
        sta     FIRST,x
        sta     FIRST+1+HALF,x
        stz     FIRST+2+2*HALF,x
        sta     SECOND,x
        sta     SECOND+1+HALF,x
        stz     SECOND+2+2*HALF,x
        txy
        bne     tables
        ldx     #OTHER
        bra     length

tables: lda     #3                      ; two registers, each twice
        sta     DMAP0+$10
        sta     DMAP0+$20
        lda     #<M7A
        sta     BBAD0+$10
        lda     #<M7C
        sta     BBAD0+$20
        stz     A1B0+$10
        stz     A1B0+$20
        lda     #7
        sta     BGMODE
        lda     #1
        sta     TM                      ; BG1
        lda     #<512
        sta     M7Y
        lda     #>512
        sta     M7Y
        lda     #<(512-112)
        sta     BG1VOFS
        lda     #>(512-112)
        sta     BG1VOFS
        rep     #$20
        jsr     compute
        sep     #$20
        lda     RDNMI                   ; forget an NMI of before
        lda     #$80
        sta     NMITIMEN
        wai                             ; the first NMI sets HDMA up
        lda     #$0F
        sta     INIDISP                 ; the picture on, still in vertical blank
        rep     #$20

; The program, once a frame: WAI waits for the NMI.
main:   jsr     compute
        wai
        bra     main

; ---------------------------------------------------------------------------------------------------------------
; Computes the pair of tables that is not shown, which the next NMI shows.
.a16
compute:
        lda     frame
        asl                             ; the plane moves by two pixels a frame
        and     #$03FF
        sta     centre
        sec
        sbc     #128
        sta     edge
        lda     frame
        jsr     sine_of
        sta     sine
        sty     sine_sign
        lda     frame
        clc
        adc     #64
        jsr     sine_of
        sta     cosine
        sty     cosine_sign
        lda     shown
        eor     #OTHER
        tax
        ldy     #0
        jsr     half
        inx                             ; the second length
        jsr     half
        lda     shown
        eor     #OTHER
        sta     shown
        rts

; Half of both tables. A product of 14 bits is 32 times an entry.
half:   txa
        clc
        adc     #HALF
        sta     limit
line:   lda     SCALES,y
        ora     cosine
        sta     WRMPYA                  ; both factors
        lda     SCALES,y
        ora     sine
        sta     later
        lda     RDMPYL
        lsr
        lsr
        lsr
        lsr
        lsr
        eor     cosine_sign
        sta     FIRST+1,x               ; M7A
        sta     SECOND+3,x              ; M7D
        lda     later
        sta     WRMPYA
        inx
        inx
        inx
        inx
        iny
        iny
        lda     RDMPYL
        lsr
        lsr
        lsr
        lsr
        lsr
        eor     sine_sign
        sta     FIRST+3-4,x             ; M7B
        eor     #$FFFF
        sta     SECOND+1-4,x            ; M7C
        cpx     limit
        bne     line
        rts

; The sine of the angle A: A is 256 times its size, which is at most 127, and Y is its sign, 0000 or FFFF.
sine_of:
        ldy     #0
        bit     #$0080
        beq     positive
        dey
positive:
        phy
        and     #$007F
        tay
        lda     sines,y
        and     #$00FF
        xba
        ply
        rts

; ---------------------------------------------------------------------------------------------------------------
; Vertical blank: HDMA gets the pair that is shown, and the picture its place.
nmi:    rep     #$20
        pha
        inc     frame
        lda     shown
        clc
        adc     #FIRST
        sta     A1T0L+$10
        adc     #SECOND-FIRST
        sta     A1T0L+$20
        sep     #$20
        lda     RDNMI
        lda     #%00000110
        sta     HDMAEN                  ; channels 1 and 2
        lda     centre
        sta     M7X
        lda     centre+1
        sta     M7X
        lda     edge
        sta     BG1HOFS
        lda     edge+1
        sta     BG1HOFS
        rep     #$20
        pla
        rti

; ---------------------------------------------------------------------------------------------------------------
.segment "RODATA"
; A row of each kind: tiles 4n to 4n + 3, four of each, eight times.
.macro four first
        .repeat 128, i
        .byte   first + ((i >> 2) & 3)
        .endrepeat
.endmacro
rows:   four    0
        four    4
        four    8
        four    12

; Colours of the tiles, with at most 15 in each part: blue, green and red, five bits each.
.define rgb(red, green, blue) .word (red) | (green) << 5 | (blue) << 10
colours:
        rgb     15, 15, 15
        rgb     2, 8, 2
        rgb     4, 10, 2
        rgb     2, 8, 2
        rgb     4, 10, 2
        rgb     2, 8, 2
        rgb     12, 4, 2
        rgb     2, 8, 2
        rgb     2, 4, 14
        rgb     4, 10, 2
        rgb     2, 8, 2
        rgb     4, 10, 2
        rgb     2, 8, 2
        rgb     14, 12, 2
        rgb     2, 8, 2
        rgb     8, 2, 10

; Half a turn of the sine, times 127.
sines:
        .byte   0, 3, 6, 9, 12, 16, 19, 22, 25, 28, 31, 34, 37, 40, 43, 46
        .byte   49, 51, 54, 57, 60, 63, 65, 68, 71, 73, 76, 78, 81, 83, 85, 88
        .byte   90, 92, 94, 96, 98, 100, 102, 104, 106, 107, 109, 111, 112, 113, 115, 116
        .byte   117, 118, 120, 121, 122, 122, 123, 124, 125, 125, 126, 126, 126, 127, 127, 127
        .byte   127, 127, 127, 127, 126, 126, 126, 125, 125, 124, 123, 122, 122, 121, 120, 118
        .byte   117, 116, 115, 113, 112, 111, 109, 107, 106, 104, 102, 100, 98, 96, 94, 92
        .byte   90, 88, 85, 83, 81, 78, 76, 73, 71, 68, 65, 63, 60, 57, 54, 51
        .byte   49, 46, 43, 40, 37, 34, 31, 28, 25, 22, 19, 16, 12, 9, 6, 3

header  "SPEED: MODE 7        ", reset, nmi
