; LINE IRQ: V-IRQs for the line on which the beam already is. Each of the three registers is written alone, 16 times, so
; that the line is VTIME from then on. Then all three are written once more with what they have, which gives no IRQ of
; its own. Last a chain: each IRQ asks for the next line, but one in 16 takes so long that this line has begun.

.include "profiles.inc"

LINE    = 100
FIRST   = 40                            ; the chain goes from here
LAST    = FIRST+127                     ; to here

.segment "ZEROPAGE"
came:   .res 1                          ; the IRQs so far
next:   .res 1                          ; NMITIMEN afterwards; bit 7: a chain
at:     .res 1                          ; the line that the chain has asked for
counts: .res 5

.segment "CODE"
.a8
.i16
        say     4, 3, "V-IRQ FOR THE PRESENT LINE"
        say     6, 3, "WAITING"
        jsr     show
        cli
        ldy     #16
by_low: jsr     set_up
        lda     #220
        sta     VTIMEL
        stz     VTIMEH
        lda     #$20
        sta     NMITIMEN                ; V-IRQ
        lda     #LINE
        jsr     line_reached
        sta     VTIMEL
        jsr     look
        bne     by_low
        lda     came
        sta     counts

        stz     came
        ldy     #16
by_high:
        jsr     set_up
        lda     #LINE
        sta     VTIMEL
        lda     #1
        sta     VTIMEH                  ; line 356, which isn't there
        lda     #$20
        sta     NMITIMEN
        lda     #LINE
        jsr     line_reached
        stz     VTIMEH
        jsr     look
        bne     by_high
        lda     came
        sta     counts+1

        stz     came
        ldy     #16
by_kind:
        jsr     set_up
        lda     #LINE
        sta     VTIMEL
        stz     VTIMEH
        jsr     line_reached
        lda     #$20
        sta     NMITIMEN
        jsr     look
        bne     by_kind
        lda     came
        sta     counts+2

        stz     came
        ldy     #16
again:  jsr     set_up
        lda     #$20
        sta     next                    ; the IRQ stays on
        lda     #LINE
        sta     VTIMEL
        stz     VTIMEH
        lda     #$20
        sta     NMITIMEN
        lda     #LINE
        jsr     line_reached
        sta     VTIMEL
        stz     VTIMEH
        lda     #$20
        sta     NMITIMEN
        jsr     look
        bne     again
        lda     came
        sta     counts+3

        ldy     #4
chain:  stz     came
        jsr     set_up
        lda     #FIRST
        sta     at
        sta     VTIMEL
        stz     VTIMEH
        lda     #$80
        sta     next
        lda     #$20
        sta     NMITIMEN
        lda     #200
        jsr     line_reached
        stz     NMITIMEN
        dey
        bne     chain
        lda     came
        sta     counts+4

        sei
        jsr     blank
        say     6, 3, "BY 4209:       "
        lda     counts
        jsr     hex
        say     8, 3, "BY 420A:       "
        lda     counts+1
        jsr     hex
        say     10, 3, "BY 4200:       "
        lda     counts+2
        jsr     hex
        say     12, 3, "WRITTEN AGAIN: "
        lda     counts+3
        jsr     hex
        say     14, 3, "A CHAIN OF 80: "
        lda     counts+4
        jsr     hex
        jsr     show
        stp

; Line 20, no IRQ.
set_up: stz     NMITIMEN
        stz     next
        lda     #20
        jmp     line_reached

; Line 120: what comes has come. Z tells that this was the last round.
look:   lda     #120
        jsr     line_reached
        stz     NMITIMEN
        dey
        rts

irq:    pha
        lda     TIMEUP
        inc     came
        bit     next
        bmi     link
        lda     next
        sta     NMITIMEN
        pla
        rti
link:   lda     at
        cmp     #LAST
        beq     stop
        inc     at
        lda     at
        and     #15
        bne     quick
        phx
        ldx     #54                     ; nearly one and a half lines
:       dex
        bne     :-
        plx
quick:  lda     at
        sta     VTIMEL
        pla
        rti
stop:   stz     NMITIMEN
        pla
        rti

profile_header "PROFILE: LINE IRQ    ", $01, irq
