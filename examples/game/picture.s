; What the game draws with: letters, blocks, colours, the land; text in work RAM; the scrolls of a frame.

.include "game.inc"

.segment "ZEROPAGE"
ink:    .res 2                          ; colour of the text
from:   .res 2
to:     .res 2
count:  .res 2
planes: .res 4                          ; a row of eight pixels as bit planes
pair:   .res 2                          ; two pixels

.segment "CODE"

; ---------------------------------------------------------------------------------------------------------------
; Sets up VRAM, CGRAM and the registers of the picture. In forced blank.
make_picture:
        jsr     small_letters
        jsr     big_letters
        ldx     #objects_art
        ldy     #SHAPES
        lda     #8
        jsr     decode
        ldx     #ground_art
        ldy     #BLOCKS
        lda     #7
        jsr     decode
        sep     #$20
        ldx     #0                      ; colours: where they go, how many bytes, and they
@more:  lda     colours,x
        cmp     #$FF
        beq     @registers
        sta     CGADD
        inx
        lda     colours,x
        sta     count
        inx
:       lda     colours,x
        sta     CGDATA
        inx
        dec     count
        bne     :-
        bra     @more
@registers:
        lda     #$39                    ; mode 1, BG3 in front, blocks of 16 pixels in BG1 and BG2
        sta     BGMODE
        lda     #>GROUND_MAP
        sta     BG1SC
        lda     #>FAR_MAP
        sta     BG2SC
        lda     #>TEXT_MAP
        sta     BG3SC
        lda     #(BLOCKS / $1000) * $11
        sta     BG12NBA
        lda     #LETTERS / $1000
        sta     BG34NBA
        lda     #$60 | SHAPES / $2000   ; objects of 16 pixels
        sta     OBSEL
        lda     #$17
        sta     TM
        ldx     #BG1VOFS                ; one up, since the first line that is seen is line 1
:       lda     #$FF
        sta     a:0,x
        lda     #$03
        sta     a:0,x
        inx
        inx
        cpx     #BG3VOFS+2
        bne     :-
        rep     #$20
        rts

; Letters of two bits a pixel: the letter in colour 1, and its shadow, one right and one down, in colour 2.
small_letters:
        lda     #LETTERS
        sta     VMADDL
        sep     #$20
        ldx     #0
@row:   lda     letters,x
        sta     planes
        txa
        and     #7
        beq     :+                      ; the first row has no shadow
        lda     letters-1,x
        lsr
:       sta     planes+1
        lda     planes
        sta     VMDATAL
        eor     #$FF
        and     planes+1
        sta     VMDATAL+1
        inx
        cpx     #512
        bne     @row
        rep     #$20
        rts

; Letters twice as high and wide: four tiles each, left and right above left and right, in colour 1, below in 3.
big_letters:
        lda     #LETTERS+8*BIG
        sta     VMADDL
        sep     #$20
        ldx     #0                      ; the first row of a letter
@tile:  stz     count                   ; bit 0: right, bit 1: lower half
@half:  phx
        lda     count
        and     #2
        beq     :+
        inx                             ; the lower half begins at row 4
        inx
        inx
        inx
:       lda     #4
        sta     planes+2
@row:   lda     letters,x
        sta     planes
        lda     count
        lsr                             ; bit 0 into the carry: the right half
        lda     planes
        bcs     :+
        lsr
        lsr
        lsr
        lsr
:       phx
        rep     #$20
        and     #$000F
        tax
        sep     #$20
        lda     twice,x                 ; four pixels, each twice
        plx
        sta     planes
        lda     count
        and     #2
        beq     :+
        lda     planes                  ; the lower half has both planes
:       sta     planes+1
        rep     #$20
        lda     planes
        sta     VMDATAL
        sta     VMDATAL
        sep     #$20
        inx
        dec     planes+2
        bne     @row
        plx
        inc     count
        lda     count
        cmp     #4
        bne     @half
        rep     #$20
        txa
        clc
        adc     #8
        tax
        sep     #$20
        cpx     #512
        bne     @tile
        rep     #$20
        rts

twice:  .byte   $00,$03,$0C,$0F,$30,$33,$3C,$3F,$C0,$C3,$CC,$CF,$F0,$F3,$FC,$FF

; Takes A blocks of pixels at X apart into tiles at word Y of VRAM: a block is two tiles in a row of 16, and the two
; below them.
decode: stx     from
        sty     to
        sta     count
@block: jsr     @two                    ; the upper two tiles
        lda     to
        clc
        adc     #16*16
        sta     to
        jsr     @two                    ; the lower two
        lda     to
        sec
        sbc     #16*16-32
        sta     to
        dec     count
        bne     @block
        rts
@two:   ldy     #8                      ; eight rows of both
@row:   ldx     from
        lda     to
        sta     VMADDL
        jsr     decode_row
        lda     planes
        sta     VMDATAL
        lda     to
        clc
        adc     #8
        sta     VMADDL
        lda     planes+2
        sta     VMDATAL
        lda     to
        adc     #16
        sta     VMADDL
        jsr     decode_row
        lda     planes
        sta     VMDATAL
        lda     to
        clc
        adc     #24
        sta     VMADDL
        lda     planes+2
        sta     VMDATAL
        stx     from
        inc     to
        dey
        bne     @row
        lda     to
        sec
        sbc     #8
        sta     to
        rts

; Eight pixels at X, four bits each, become four bytes; X goes on by four.
decode_row:
        phy
        sep     #$20
        ldy     #4
@two:   lda     a:0,x
        sta     pair
        .repeat 2
        asl     pair
        rol     planes+3
        asl     pair
        rol     planes+2
        asl     pair
        rol     planes+1
        asl     pair
        rol     planes
        .endrepeat
        inx
        dey
        bne     @two
        rep     #$20
        ply
        rts

; ---------------------------------------------------------------------------------------------------------------
; The maps of BG1 and BG2. Heights rise or fall by one from column to column, so each column has a slope on top.
make_land:
        sep     #$20
        lda     #$81                    ; a step of 32 words: down a column
        sta     VMAIN
        rep     #$20
        ldx     #0
@column:
        txa
        clc
        adc     #FAR_MAP
        sta     to
        lda     #$0800                  ; the palette
        sta     ink
        ldy     #.loword(mountains)
        lda     #12                     ; down to this row
        jsr     hill_column
        txa
        clc
        adc     #GROUND_MAP
        sta     to
        lda     #$0C00
        sta     ink
        ldy     #.loword(hills)
        lda     #11
        jsr     hill_column
        lda     #$0402                  ; grass, with flowers here and there
        pha
        txa
        and     #5
        cmp     #4
        bne     :+
        pla
        lda     #$040C
        pha
:       pla
        sta     VMDATAL
        lda     #$0404                  ; earth
        sta     VMDATAL
        inx
        cpx     #32
        bne     @column
        sep     #$20
        lda     #$80
        sta     VMAIN
        rep     #$20
        rts

; A column of hills: X its number, Y the heights, A its last row, ink the palette, to where it begins.
hill_column:
        sta     count                   ; rows that are left, with the first one
        inc     count
        sty     from
        lda     to
        sta     VMADDL
        phx
        txa
        clc
        adc     from
        tax
        lda     a:0,x                   ; this height and the next one
        plx
        sep     #$20
        sta     planes
        xba
        cmp     planes
        lda     #6                      ; a slope up
        bcs     :+
        dec     planes                  ; or down: the column is full up to the lower of the two
        lda     #8
:       sta     planes+1
        rep     #$20
@row:   lda     planes                  ; how far the row is above the full part
        and     #$00FF
        cmp     count
        bcs     @full
        inc
        cmp     count
        beq     @slope
        lda     #0
        bra     @put
@slope: lda     planes+1
        and     #$00FF
        ora     ink
        bra     @put
@full:  lda     #10
        ora     ink
@put:   sta     VMDATAL
        dec     count
        bne     @row
        rts

; ---------------------------------------------------------------------------------------------------------------
; Vertical blank: the scrolls of the frame. BG1 has two, by HDMA: the hills down to line 191 go half as fast as the
; ground; BG2 goes an eighth as fast.
nmi_picture:
        lda     scroll
        sta     waves+7
        lsr
        sta     waves+1
        sta     waves+4
        lsr
        lsr
        sep     #$20
        sta     BG2HOFS
        xba
        sta     BG2HOFS
        lda     #127
        sta     waves
        lda     #192-127
        sta     waves+3
        lda     #1
        sta     waves+6
        stz     waves+9
        rep     #$20
        rts

; ---------------------------------------------------------------------------------------------------------------
; Text, in the map that is moved to VRAM in vertical blank. X is where it goes, Y the text, which a zero ends.

clear_text:
        ldx     #2046
:       stz     text,x
        dex
        dex
        bpl     :-
        rts

print:  lda     a:0,y
        and     #$00FF
        beq     :+
        sec
        sbc     #32
        ora     ink
        sta     a:0,x
        inx
        inx
        iny
        bra     print
:       rts

print_big:
        lda     a:0,y
        and     #$00FF
        beq     :+
        sec
        sbc     #32
        asl
        asl
        adc     #BIG
        ora     ink
        sta     a:0,x
        inc
        sta     a:2,x
        inc
        sta     a:64,x
        inc
        sta     a:66,x
        txa
        clc
        adc     #4
        tax
        iny
        bra     print_big
:       rts

; The last Y digits of A at X.
print_digits:
        sta     to
        sty     count
        tya
        dec
        asl
        sta     from
        txa
        clc
        adc     from
        tax                             ; the last one first
:       lda     to
        and     #$000F
        ora     #'0'-32
        ora     ink
        sta     a:0,x
        dex
        dex
        lsr     to
        lsr     to
        lsr     to
        lsr     to
        dec     count
        bne     :-
        rts

; ---------------------------------------------------------------------------------------------------------------
.segment "RODATA"

; Heights of 32 columns, in blocks, and the first one again.
mountains:
        .byte   4,5,6,7,6,5,4,5,6,5,4,3,4,5,6,7,8,7,6,5,4,3,4,5,6,5,4,5,6,7,6,5,4
hills:  .byte   1,2,3,4,3,2,1,2,3,2,1,0,1,2,3,2,1,2,3,4,3,2,1,0,1,2,1,2,3,2,1,2,1

; Colours: the first one's number, how many bytes, the colours; FF ends them. BBBBBGGGGGRRRRR.
.define rgb(r, g, b) .word (r) | (g) << 5 | (b) << 10
colours:
        .byte   1, 6                    ; text: letter and shadow (or the lower half of a big letter)
        rgb     31, 31, 31
        rgb     4, 2, 8
        rgb     22, 24, 31
        .byte   5, 6
        rgb     31, 14, 11
        rgb     4, 2, 8
        rgb     31, 8, 8
        .byte   9, 6
        rgb     12, 22, 31
        rgb     4, 2, 8
        rgb     6, 14, 31
        .byte   13, 6
        rgb     31, 29, 8
        rgb     6, 2, 6
        rgb     31, 17, 4
        .byte   17, 16                  ; ground
        rgb     6, 4, 3
        rgb     10, 6, 3
        rgb     14, 9, 5
        rgb     9, 11, 4
        rgb     4, 12, 5
        rgb     7, 18, 6
        rgb     12, 25, 8
        rgb     31, 20, 24
        .byte   33, 8                   ; mountains
        rgb     9, 5, 14
        rgb     7, 4, 12
        rgb     19, 10, 19
        rgb     5, 3, 10
        .byte   49, 8                   ; hills
        rgb     4, 9, 8
        rgb     3, 7, 7
        rgb     8, 16, 10
        rgb     2, 6, 6
        .byte   129, 18                 ; the first ship
        rgb     5, 1, 3
        rgb     15, 3, 5
        rgb     25, 6, 7
        rgb     31, 15, 13
        rgb     12, 22, 31
        rgb     24, 30, 31
        rgb     31, 27, 8
        rgb     31, 14, 3
        rgb     31, 31, 31
        .byte   145, 18                 ; the second ship
        rgb     1, 2, 7
        rgb     4, 7, 18
        rgb     7, 14, 27
        rgb     14, 23, 31
        rgb     31, 24, 10
        rgb     31, 30, 22
        rgb     31, 27, 8
        rgb     31, 14, 3
        rgb     31, 31, 31
        .byte   161, 8                  ; stars and shots
        rgb     12, 5, 1
        rgb     31, 16, 2
        rgb     31, 23, 4
        rgb     31, 31, 17
        .byte   177, 18                 ; rocks and bursts
        rgb     3, 2, 4
        rgb     9, 7, 9
        rgb     15, 12, 14
        rgb     22, 19, 19
        rgb     0, 0, 0
        rgb     0, 0, 0
        rgb     31, 24, 6
        rgb     28, 10, 3
        rgb     31, 31, 22
        .byte   $FF

letters:
        .include "font.inc"
        .include "art.inc"
