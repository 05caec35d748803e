; What happens in the game: ships, shots, stars and rocks; the score and the time; the title and the end.

.include "game.inc"

.segment "ZEROPAGE"
seconds:  .res 2                        ; left, in decimal digits
ticks:    .res 2                        ; frames until the next second, or of the end
random:   .res 2
rate:     .res 2                        ; frames until the next thing comes

player_x: .res 2*PLAYERS
player_y: .res 2*PLAYERS
player_blink: .res 2*PLAYERS            ; frames for which a hit ship can do nothing but fly
player_wait:  .res 2*PLAYERS            ; frames until it can shoot again
player_joined: .res 2*PLAYERS
player_score: .res 2*PLAYERS            ; decimal digits

shot_on:  .res 2*SHOTS
shot_x:   .res 2*SHOTS
shot_y:   .res 2*SHOTS

kind:     .res 2*THINGS                 ; nothing, a star, a rock, a burst
thing_x:  .res 2*THINGS
thing_y:  .res 2*THINGS
speed:    .res 2*THINGS                 ; pixels a frame; of a burst, how many frames it lasts

at_x:     .res 2                        ; of the object that is drawn, or of what may be hit
at_y:     .res 2
shape:    .res 2
who:      .res 2

NOTHING = 0
A_STAR  = 1
A_ROCK  = 2
A_BURST = 3

.segment "CODE"

; ---------------------------------------------------------------------------------------------------------------
; The title.
begin_title:
        jsr     clear_text
        lda     #TITLE
        sta     state
        stz     ticks
        ldx     #player_x               ; everything of the game is nothing
:       stz     a:0,x
        inx
        inx
        cpx     #at_x
        bne     :-
        lda     #YELLOW
        sta     ink
        ldx     #text+2*(32*6+4)
        ldy     #.loword(name)
        jsr     print_big
        lda     #WHITE
        sta     ink
        ldx     #text+2*(32*9+4)
        ldy     #.loword(promise)
        jsr     print
        lda     #RED
        sta     ink
        ldx     #text+2*(32*17+6)
        ldy     #.loword(one)
        jsr     print
        lda     #BLUE
        sta     ink
        ldx     #text+2*(32*19+6)
        ldy     #.loword(two)
        jsr     print
        lda     #$0001
        sta     player_joined
        sta     player_joined+2
        rts

; A frame of the title: the ships wait, and START on either pad begins.
title:  inc     scroll
        lda     #40
        sta     player_x
        lda     #200
        sta     player_x+2
        lda     frame
        lsr
        lsr
        jsr     sway
        adc     #100
        sta     player_y
        lda     frame
        lsr
        lsr
        eor     #4
        jsr     sway
        adc     #100
        sta     player_y+2
        lda     #WHITE
        sta     ink
        ldy     #.loword(push)          ; comes and goes
        lda     frame
        and     #$0020
        beq     :+
        ldy     #.loword(spaces)
:       ldx     #text+2*(32*13+11)
        jsr     print
        jsr     draw_play
        lda     pressed
        ora     pressed+2
        and     #BUTTON_START
        bne     begin_play
        rts

; Up and down by the low four bits of A; the carry is clear.
sway:   and     #$000F
        tax
        lda     swaying,x
        and     #$00FF
        clc
        rts
swaying:
        .byte   0, 0, 1, 2, 3, 4, 5, 6, 6, 6, 5, 4, 3, 2, 1, 0, 0

; The pad that pressed START has its ship, and the other one comes once a button of its pad is pressed.
begin_play:
        jsr     clear_text
        lda     #PLAY
        sta     state
        lda     #SOUND_START
        sta     sound
        lda     frame                   ; what comes depends on when it began
        ora     #$4000
        sta     random
        lda     #$0060
        sta     seconds
        lda     #60
        sta     ticks
        sta     rate
        ldx     #2
:       stz     player_joined,x
        lda     pressed,x
        and     #BUTTON_START
        beq     :+
        inc     player_joined,x
:       dex
        dex
        bpl     :--
        lda     #60
        sta     player_y
        lda     #120
        sta     player_y+2
        lda     #32
        sta     player_x
        sta     player_x+2
        rts

; ---------------------------------------------------------------------------------------------------------------
; A frame of the game.
play:   inc     scroll
        inc     scroll
        ldx     #2*(PLAYERS-1)
:       jsr     fly
        dex
        dex
        bpl     :-
        jsr     move_shots
        jsr     move_things
        dec     rate
        bne     :+
        jsr     new_thing
:       jsr     draw_play
        jsr     draw_score
        dec     ticks
        bne     @on
        lda     #60
        sta     ticks
        sed
        lda     seconds
        sec
        sbc     #1
        sta     seconds
        cld
        bne     @on
        jmp     begin_over
@on:    lda     pressed
        ora     pressed+2
        and     #BUTTON_START
        beq     :+
        lda     #PAUSE
        sta     state
        lda     #SOUND_START
        sta     sound
        lda     #YELLOW
        sta     ink
        ldx     #text+2*(32*13+11)
        ldy     #.loword(paused)
        jsr     print_big
:       rts

; The ship of player X (0 or 2).
fly:    lda     player_joined,x
        bne     @joined
        lda     pressed,x
        beq     :+
        inc     player_joined,x
        stz     pressed,x               ; the button does nothing else
        lda     #60
        sta     player_blink,x
:       rts
@joined:
        lda     held,x
        bit     #BUTTON_RIGHT
        beq     :+
        inc     player_x,x
        inc     player_x,x
:       bit     #BUTTON_LEFT
        beq     :+
        dec     player_x,x
        dec     player_x,x
:       bit     #BUTTON_DOWN
        beq     :+
        inc     player_y,x
        inc     player_y,x
:       bit     #BUTTON_UP
        beq     :+
        dec     player_y,x
        dec     player_y,x
:       lda     player_x,x
        cmp     #8
        bcs     :+
        lda     #8
:       cmp     #224
        bcc     :+
        lda     #224
:       sta     player_x,x
        lda     player_y,x
        cmp     #24
        bcs     :+
        lda     #24
:       cmp     #176
        bcc     :+
        lda     #176
:       sta     player_y,x
        lda     player_blink,x
        beq     :+
        dec     player_blink,x
        rts
:       lda     player_wait,x
        beq     :+
        dec     player_wait,x
        rts
:       lda     held,x
        and     #BUTTON_B|BUTTON_Y|BUTTON_A|BUTTON_X
        beq     @end
        txa                             ; its two shots: 4 X and 4 X + 2, of which one has to be free
        asl
        tay
        lda     shot_on,y
        beq     :+
        iny
        iny
        lda     shot_on,y
        bne     @end
:       lda     #1
        sta     shot_on,y
        lda     player_x,x
        clc
        adc     #12
        sta     shot_x,y
        lda     player_y,x
        sta     shot_y,y
        lda     #12
        sta     player_wait,x
        lda     #SOUND_SHOT
        jsr     make_sound
@end:   rts

; A sound, unless one of higher rank is made in this frame.
make_sound:
        cmp     sound
        bcc     :+
        sta     sound
:       rts

move_shots:
        ldx     #2*(SHOTS-1)
@one:   lda     shot_on,x
        beq     @next
        lda     shot_x,x
        clc
        adc     #6
        sta     shot_x,x
        cmp     #256
        bcc     @next
        stz     shot_on,x
@next:  dex
        dex
        bpl     @one
        rts

; ---------------------------------------------------------------------------------------------------------------
; Stars, rocks and bursts.
move_things:
        ldx     #2*(THINGS-1)
@one:   lda     kind,x
        beq     @next
        cmp     #A_BURST
        bne     @fly
        dec     thing_x,x
        dec     speed,x
        bne     @next
        stz     kind,x
        bra     @next
@fly:   lda     thing_x,x
        sec
        sbc     speed,x
        sta     thing_x,x
        clc
        adc     #16                     ; past the left edge?
        bpl     :+
        stz     kind,x
        bra     @next
:       jsr     meet
@next:  dex
        dex
        bpl     @one
        rts

; What thing X meets: shots, if it is a rock, and ships.
meet:   lda     thing_x,x
        sta     at_x
        lda     thing_y,x
        sta     at_y
        lda     kind,x
        cmp     #A_ROCK
        bne     @ships
        ldy     #2*(SHOTS-1)
@shot:  lda     shot_on,y
        beq     @miss
        lda     shot_x,y
        sta     who
        lda     shot_y,y
        jsr     is_near
        bcs     @miss
        lda     #0
        sta     shot_on,y
        tya                             ; whose shot it was
        lsr
        and     #2
        tay
        lda     #$0005
        jsr     score
        lda     #SOUND_BURST
        jmp     burst
@miss:  dey
        dey
        bpl     @shot
@ships: ldy     #2*(PLAYERS-1)
@ship:  lda     player_joined,y
        beq     @past
        lda     player_blink,y
        bne     @past
        lda     player_x,y
        sta     who
        lda     player_y,y
        jsr     is_near
        bcs     @past
        lda     kind,x
        cmp     #A_ROCK
        beq     @hit
        stz     kind,x
        lda     #$0010
        jsr     score
        lda     #SOUND_STAR
        jmp     make_sound
@hit:   lda     #90
        sta     player_blink,y
        sed
        lda     player_score,y
        sec
        sbc     #$0010
        cld
        bcs     :+
        lda     #0
:       sta     player_score,y
        lda     #SOUND_HIT
        bra     burst
@past:  dey
        dey
        bpl     @ship
@end:   rts

; Thing X bursts, with sound A.
burst:  jsr     make_sound
        lda     #A_BURST
        sta     kind,x
        lda     #16
        sta     speed,x
        rts

; Player Y gets A, in decimal digits.
score:  sed
        clc
        adc     player_score,y
        cld
        sta     player_score,y
        rts

; Whether what stands at who and A is less than 12 from at_x and at_y, both ways: then the carry is clear.
is_near:
        sec
        sbc     at_y
        clc
        adc     #11
        cmp     #23
        bcs     :+
        lda     who
        sec
        sbc     at_x
        clc
        adc     #11
        cmp     #23
:       rts

; A new thing, if there is room for one; the next comes sooner the less time is left.
new_thing:
        lda     seconds
        lsr
        lsr
        and     #$001F
        clc
        adc     #10
        sta     rate
        ldx     #2*(THINGS-1)
:       lda     kind,x
        beq     :+
        dex
        dex
        bpl     :-
        rts
:       lda     #272
        sta     thing_x,x
        jsr     next_random
        and     #$007F
        clc
        adc     #28
        sta     thing_y,x
        jsr     next_random
        and     #$0001
        inc
        sta     speed,x
        lda     random
        and     #$0070
        cmp     #$0030                  ; three stars for five rocks, and the rocks are faster
        lda     #A_STAR
        bcc     :+
        inc     speed,x
        lda     #A_ROCK
:       sta     kind,x
        rts

; The next of 65,535 numbers: a register that is shifted, with four taps.
next_random:
        ldy     #5
:       lsr     random
        bcc     :+
        lda     random
        eor     #$B400
        sta     random
:       dey
        bne     :--
        lda     random
        rts

; ---------------------------------------------------------------------------------------------------------------
; All objects of a frame: ships, shots, things; what comes first is in front.
draw_play:
        lda     #$F0F0
        ldx     #4*(PLAYERS+SHOTS+THINGS)-2
:       sta     oam,x
        dex
        dex
        bpl     :-
        stz     oam+512
        stz     oam+514
        stz     oam+516
        ldy     #0                      ; the place in OAM
        ldx     #0
@ship:  lda     player_joined,x
        beq     @unseen
        lda     player_blink,x
        and     #4
        bne     @unseen
        lda     player_x,x
        sta     at_x
        lda     player_y,x
        sta     at_y
        txa                             ; the palette is the ship's
        xba
        sta     shape
        lda     frame
        lsr
        and     #$0002
        clc
        adc     #SHIP
        ora     shape
        sta     shape
        jsr     put
@unseen:
        inx
        inx
        cpx     #2*PLAYERS
        bne     @ship
        ldx     #0
@shot:  lda     shot_on,x
        beq     :+
        lda     shot_x,x
        sta     at_x
        lda     shot_y,x
        sta     at_y
        lda     #SHOT
        sta     shape
        jsr     put
:       inx
        inx
        cpx     #2*SHOTS
        bne     @shot
        ldx     #0
@thing: lda     kind,x
        beq     @none
        cmp     #A_ROCK
        beq     @rock
        bcs     @burst
        lda     frame
        and     #8
        beq     :+
        lda     #TURNED-STAR
:       clc
        adc     #STAR
        bra     @put
@rock:  lda     frame                   ; a rock tumbles: it is turned over across and down
        asl
        asl
        asl
        asl
        asl
        asl
        asl
        asl
        asl
        asl
        and     #$C000
        ora     #ROCK
        bra     @put
@burst: lda     speed,x
        cmp     #8
        lda     #BURST
        bcs     @put
        lda     #LATER
@put:   sta     shape
        lda     thing_x,x
        sta     at_x
        lda     thing_y,x
        sta     at_y
        jsr     put
@none:  inx
        inx
        cpx     #2*THINGS
        bne     @thing
        rts

; Puts an object into place Y of OAM, unless it is outside, and goes on to the next place.
put:    lda     at_x
        clc
        adc     #15
        cmp     #256+15
        bcs     @outside
        sep     #$20
        lda     at_x
        sta     oam,y
        lda     at_y
        sta     oam+1,y
        rep     #$20
        lda     shape
        sta     oam+2,y
        lda     at_x
        bpl     :+
        phx                             ; bit 8 of its X: two bits for each object behind the 512 bytes
        tya
        lsr
        lsr
        and     #3
        tax
        lda     ninth,x
        and     #$00FF
        pha
        tya
        lsr
        lsr
        lsr
        lsr
        tax
        sep     #$20
        pla
        ora     oam+512,x
        sta     oam+512,x
        pla
        rep     #$20
        plx
:       iny
        iny
        iny
        iny
@outside:
        rts
ninth:  .byte   $01, $04, $10, $40, 0

; The line of scores and time.
draw_score:
        lda     #RED
        sta     ink
        ldx     #text+2*(32+1)
        ldy     #.loword(first)
        jsr     print
        lda     player_score
        ldy     #4
        ldx     #text+2*(32+4)
        jsr     print_digits
        lda     #WHITE
        sta     ink
        ldx     #text+2*(32+13)
        ldy     #.loword(time)
        jsr     print
        lda     seconds
        ldy     #2
        ldx     #text+2*(32+18)
        jsr     print_digits
        lda     #BLUE
        sta     ink
        ldx     #text+2*(32+24)
        ldy     #.loword(second)
        jsr     print
        lda     player_score+2
        ldy     #4
        ldx     #text+2*(32+27)
        jmp     print_digits

; ---------------------------------------------------------------------------------------------------------------
; The end: who has more.
begin_over:
        lda     #OVER
        sta     state
        lda     #120
        sta     ticks
        lda     #SOUND_START
        sta     sound
        jsr     draw_score
        ldy     #.loword(both)
        lda     #WHITE
        sta     ink
        lda     player_score
        cmp     player_score+2
        beq     @print
        ldy     #.loword(red)
        lda     #RED
        bcs     :+
        ldy     #.loword(blue)
        lda     #BLUE
:       sta     ink
@print: ldx     #text+2*(32*11+6)
        jmp     print_big

.segment "RODATA"
name:   .byte   "STAR HARVEST", 0
promise:
        .byte   "A MINUTE TO GATHER STARS", 0
push:   .byte   "PUSH START", 0
spaces: .byte   "          ", 0
one:    .byte   "PAD 1: THE RED SHIP", 0
two:    .byte   "PAD 2: THE BLUE SHIP", 0
paused: .byte   "PAUSE", 0
first:  .byte   "1P", 0
second: .byte   "2P", 0
time:   .byte   "TIME", 0
red:    .byte   "RED  WINS!", 0
blue:   .byte   "BLUE WINS!", 0
both:   .byte   "BOTH  WIN!", 0
