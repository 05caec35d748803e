; A cartridge with five planted faults, for ./lint. Each is on the line that says so.
.p816
.smart +

INIDISP = $2100
VMADDL  = $2116
VMDATAL = $2118
CGADD   = $2121
CGDATA  = $2122
WRMPYA  = $4202
WRMPYB  = $4203
RDMPYL  = $4216
NMITIMEN = $4200
JOY1L   = $4218
RDNMI   = $4210

.segment "ZEROPAGE"
lives:  .res 2
score:  .res 2

.segment "CODE"
reset:  sei
        clc
        xce
        rep     #$18
        ldx     #$1FFF
        txs
        sep     #$20
        lda     #$80
        sta     INIDISP
        ldx     #$33                    ; 2101 to 2133: zeros, twice, since many of them take two bytes
:       stz     INIDISP,x
        stz     INIDISP,x
        dex
        bne     :-
        stz     lives
        stz     lives+1
        stz     CGADD
        lda     #$1F
        sta     CGDATA
        stz     CGDATA
        lda     RDNMI
        lda     #$81
        sta     NMITIMEN
        lda     #$0F
        sta     INIDISP

main:   wai
        lda     score                   ; fault 1: nothing has written it
        sta     lives
        lda     #7
        sta     WRMPYA
        lda     #6
        sta     WRMPYB
        lda     RDMPYL                  ; fault 2: too early
        sta     lives+1
        jsr     busy
        ldx     #$0400
        stx     VMADDL
        lda     lives+1
        sta     VMDATAL                 ; fault 3: the picture is drawn
        sta     $3456                   ; fault 4: nothing lies there
        bra     main

; The rest of vertical blank passes.
busy:   ldx     #3000
:       dex
        bne     :-
        rts

nmi:    pha
        lda     JOY1L                   ; fault 5: auto-read is busy
        sta     lives
        lda     RDNMI
        pla
        rti

none:   rti

.segment "HEADER"
        .byte   "FIVE FAULTS          "
        .byte   $20, $00, $05, $00, $00, $00, $00
        .word   $FFFF, $0000
        .word   0, 0, none, none, none, nmi, 0, none
        .word   0, 0, none, 0, none, none, reset, none
