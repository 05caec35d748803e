; What all cartridges of this folder have at F800: the start, letters, and a few routines. The program is at 8000.

.include "profiles.inc"

main = $8000

.segment "SHAREDZP" : zeropage
from:   .res 2                          ; the sound program that upload sends
length: .res 2
line:   .res 1                          ; the line that line_reached waits for

.segment "SHARED"
.a8
.i16
start:  begin_machine
        lda     #$FF
        sta     WRIO
        lda     #$80
        sta     VMAIN                   ; a step after the high byte
        ldx     #0
        stx     VMADDL
        dma     $09, VMDATAL, zero, 0           ; VRAM: two registers, an address that stays, 65,536 bytes
        stz     CGADD
        dma     $08, CGDATA, zero, 512
        ldx     #0
        stx     OAMADDL
        dma     $08, OAMDATA, zero, 544
        ldx     #0
        stx     WMADDL
        stz     WMADDL+2
        dma     $08, WMDATA, zero, $1000        ; variables
        stz     VMAIN                   ; a step after the low byte: letters have one bit a pixel
        ldx     #LETTERS
        stx     VMADDL
        dma     $00, VMDATAL, letters, 512
        lda     #$80
        sta     VMAIN
        stz     CGADD
        dma     $00, CGDATA, colours, 4
        lda     #>TEXT
        sta     BG1SC
        lda     #LETTERS / $1000
        sta     BG12NBA
        lda     #1
        sta     TM                      ; BG1 in mode 0
        jmp     main

; Prints the text at Y, which a zero ends, from word X of VRAM on. Only in forced blank.
print:  stx     VMADDL
:       lda     a:0,y
        beq     :+
        sec
        sbc     #32
        sta     VMDATAL
        stz     VMDATAL+1
        iny
        bra     :-
:       rts

; Prints two digits of A behind what was printed last.
hex:    pha
        lsr
        lsr
        lsr
        lsr
        jsr     digits
        pla
        and     #$0F
digits: cmp     #10                     ; 0 to 9, then A to F: seven codes further on
        bcc     :+
        adc     #6                      ; and the carry, which is set
:       adc     #'0'-32
        sta     VMDATAL
        stz     VMDATAL+1
        rts

; Waits for the beginning of vertical blank.
next_blank:
:       bit     HVBJOY
        bmi     :-
:       bit     HVBJOY
        bpl     :-
        rts

; The picture on, and off, at the beginning of vertical blank.
show:   jsr     next_blank
        lda     #$0F
        sta     INIDISP
        rts
blank:  jsr     next_blank
        lda     #$80
        sta     INIDISP
        rts

; Waits for the beginning of the line in A, below 256.
line_reached:
        sta     line
:       jsr     present
        beq     :-
:       jsr     present
        bne     :-
        rts
present:
        lda     SLHV
        lda     STAT78
        lda     OPVCT
        cmp     line
        rts

; Gives the sound processor a program: Y bytes from X on, which go to 0200 and begin there.
upload: stx     from
        sty     length
        ldx     #$BBAA
:       cpx     APUIO0                  ; the boot ROM is ready once ports 0 and 1 read AA and BB
        bne     :-
        ldx     #$0200
        stx     APUIO2
        lda     #1
        sta     APUIO1                  ; not zero: a block follows
        lda     #$CC
        sta     APUIO0
:       cmp     APUIO0
        bne     :-
        ldy     #0
byte:   lda     (from),y
        sta     APUIO1
        tya
        sta     APUIO0                  ; its number, modulo 256
:       cmp     APUIO0
        bne     :-
        iny
        cpy     length
        bne     byte
        ldx     #$0200
        stx     APUIO2
        stz     APUIO1                  ; zero: go there
        adc     #1                      ; two more than the last number (the carry is set): that ends the block
        bne     :+
        inc                             ; but not zero
:       sta     APUIO0
:       cmp     APUIO0
        bne     :-
        rts

zero:   .word   0
colours:                                ; BBBBBGGGGGRRRRR
        .word   $2000, $7FFF
letters:
        .include "font.inc"
