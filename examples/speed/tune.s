; TUNE: a cartridge to measure speed by. The sound processor works all the time: eight voices, each with an echo, whose
; pitches and volumes change each millisecond. The console waits, and talks to it once a frame.
;
; The console writes to port 0 which of four parts of the tune is to be played. At port 1 it reads the step of the tune,
; and shows it as the colour of the backdrop.

.include "speed.inc"

.import __SOUND_LOAD__, __SOUND_RUN__, __SOUND_SIZE__, begin

.segment "ZEROPAGE"
frame:  .res 2                          ; NMIs since the start

.segment "CODE"
.a8
.i16
reset:  begin_machine
        ldx     #0
        stx     frame

; The boot ROM takes the sound program byte by byte.
        ldx     #$BBAA
ready:  cpx     APUIO0                  ; it is ready once ports 0 and 1 read AA and BB
        bne     ready
        ldx     #__SOUND_RUN__
        stx     APUIO2                  ; where the block goes
        lda     #1
        sta     APUIO1                  ; not zero: a block follows
        lda     #$CC
        sta     APUIO0
taken:  cmp     APUIO0
        bne     taken
        ldx     #0
byte:   lda     f:__SOUND_LOAD__,x
        sta     APUIO1
        txa
        sta     APUIO0                  ; its number, modulo 256
same:   cmp     APUIO0
        bne     same
        inx
        cpx     #__SOUND_SIZE__
        bne     byte
        ldx     #begin
        stx     APUIO2
        stz     APUIO1                  ; zero: go there
        adc     #1                      ; two more than the last number (the carry is set): that ends the block
        bne     order
        inc                             ; but not zero
order:  sta     APUIO0
begun:  cmp     APUIO0
        bne     begun
        stz     APUIO0                  ; the first part of the tune

        lda     #$0F
        sta     INIDISP                 ; the picture on
        lda     RDNMI                   ; forget an NMI of before
        lda     #$80
        sta     NMITIMEN
main:   wai
        bra     main

; Vertical blank: a part of the tune takes 128 frames. The backdrop is green, with red for the step.
nmi:    rep     #$20
        pha
        inc     frame
        lda     frame
        asl
        xba                             ; frame / 128
        sep     #$20
        and     #3
        sta     APUIO0
        lda     APUIO1
        and     #$1F
        stz     CGADD
        sta     CGDATA
        lda     #2
        sta     CGDATA
        lda     RDNMI
        rep     #$20
        pla
        rti

header  "SPEED: TUNE          ", reset, nmi
