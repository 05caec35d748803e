; FLIPS: objects that are twice as high as wide (16 by 32, 32 by 64), each as it is, flipped across, down and both ways.
; First with size code 6, then with code 7, whose large objects are squares of 32. All are made of letters.

.include "profiles.inc"

.segment "ZEROPAGE"
colour: .res 1                          ; bits 0 and 1: which planes a letter has
pattern: .res 1                         ; a line of a letter

.segment "CODE"
.a8
.i16
; Tiles of 16 colours from 2000 on: the 64 letters three times, with colours 1, 2 and 3.
        ldx     #$2000
        stx     VMADDL
        lda     #1
        sta     colour
copies: ldx     #0
tile:   ldy     #8
row:    lda     a:letters,x
        sta     pattern
        lda     colour
        lsr                             ; plane 0
        jsr     plane
        sta     VMDATAL
        lda     colour
        lsr
        lsr                             ; plane 1
        jsr     plane
        sta     VMDATAL+1
        inx
        dey
        bne     row
        ldy     #8
none:   stz     VMDATAL                 ; planes 2 and 3
        stz     VMDATAL+1
        dey
        bne     none
        cpx     #512
        bne     tile
        inc     colour
        lda     colour
        cmp     #4
        bne     copies
        lda     #129
        sta     CGADD
        dma     $00, CGDATA, object_colours, 6

        ldx     #0
        stx     OAMADDL
        dma     $00, OAMDATA, objects, 32
        ldx     #120
rest:   lda     #0                      ; all other objects lie below the picture: rows 224 to 255
        sta     OAMDATA
        lda     #224
        sta     OAMDATA
        stz     OAMDATA
        stz     OAMDATA
        dex
        bne     rest
        stz     OAMDATA                 ; the first four are small,
        lda     #$AA
        sta     OAMDATA                 ; the next four large
        ldx     #30
more:   stz     OAMDATA
        dex
        bne     more
        lda     #$11
        sta     TM                      ; objects and BG1

        lda     #$C1
        sta     OBSEL                   ; sizes 16 by 32 and 32 by 64, tiles from 2000 on
        say     2, 3, "SIZE CODE 6"
        jsr     show
        ldx     #40
frames: jsr     next_blank
        dex
        bne     frames
        lda     #$80
        sta     INIDISP
        lda     #$E1
        sta     OBSEL                   ; 16 by 32 and 32 by 32
        say     2, 3, "SIZE CODE 7"
        jsr     show
        stp

; The line of a letter where the carry is set, else nothing.
plane:  lda     #0
        bcc     :+
        lda     pattern
:       rts

ignore: rti

.segment "RODATA"
object_colours:                         ; BBBBBGGGGGRRRRR
        .word   $03FF, $7FE0, $03E0
objects:                                ; across, down, tile, flips (80 down, 40 across) and priority
        .byte   24, 40, $13, $30
        .byte   88, 40, $13, $70
        .byte   152, 40, $13, $B0
        .byte   216, 40, $13, $F0
        .byte   16, 104, $11, $30
        .byte   80, 104, $11, $70
        .byte   144, 104, $11, $B0
        .byte   208, 104, $11, $F0

profile_header "PROFILE: FLIPS       ", $01, ignore
