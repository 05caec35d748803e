; SIEVE: a cartridge to measure speed by. The processor works in work RAM all the time, by words. It crosses out the
; multiples of each prime below 64 in a table of 4,096 words, counts the 564 primes that are left, and begins anew.
;
; The picture is the backdrop alone. Its colour shows how many rounds are done. A wrong count stops the processor.

.include "speed.inc"

SIZE   = $2000                          ; the bytes of the table: a word for each number
FLAGS  = $2000                          ; where it is in bank 7E
PRIMES = 564                            ; the primes below 4,096

.segment "ZEROPAGE"
rounds: .res 2                          ; how often the table was made
step:   .res 2                          ; from a multiple to the next one, in bytes
count:  .res 2                          ; the primes so far

.segment "CODE"
.a8
.i16
reset:  begin_machine
        ldx     #0
        stx     rounds
        lda     #$0F
        sta     INIDISP                 ; the picture on
        lda     RDNMI                   ; forget an NMI of before
        lda     #$80
        sta     NMITIMEN
        lda     #$7E
        pha
        plb                             ; data in bank 7E; the direct page and the stack are in bank 0
        rep     #$20

; All numbers are taken for primes.
again:  lda     #1
        ldx     #SIZE-2
fill:   sta     a:FLAGS,x
        dex
        dex
        bpl     fill

; X is twice a number from 2 on. If it is a prime, its multiples are crossed out.
        ldx     #4
try:    lda     a:FLAGS,x
        beq     next
        stx     step
        txa
        asl
cross:  tay
        lda     #0
        sta     a:FLAGS,y
        tya
        clc
        adc     step
        cmp     #SIZE
        bcc     cross
next:   inx
        inx
        cpx     #2*64                   ; the square root of 4,096
        bne     try

        stz     count
        ldx     #4
sum:    lda     a:FLAGS,x
        clc
        adc     count
        sta     count
        inx
        inx
        cpx     #SIZE
        bne     sum
        cmp     #PRIMES
        beq     right
        stp
right:  inc     rounds
        jmp     again

; Vertical blank: the backdrop is blue, and four times the rounds, which are red first and then green too.
nmi:    rep     #$20
        pha
        phb
        phk
        plb                             ; the registers are in bank 0
        lda     rounds
        asl
        asl
        ora     #$4000
        sep     #$20
        stz     CGADD
        sta     CGDATA
        xba
        sta     CGDATA
        lda     RDNMI
        rep     #$20
        plb
        pla
        rti

header  "SPEED: SIEVE         ", reset, nmi
