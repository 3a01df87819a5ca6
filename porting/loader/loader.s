; Loads an image (bin-le) on a 6502. get_byte gives the next byte in A, from a tape, a serial line or a file, and keeps Y.
; The words go to `store`, whose other cells must be 0, and P becomes the stack base. `at`, `words` and P are in the zero page.
load:   jsr     get_byte        ; the stack base is how many words follow
        sta     P
        sta     words
        jsr     get_byte
        sta     P+1
        sta     words+1
        lda     #<store
        sta     at
        lda     #>store
        sta     at+1
next:   lda     words
        bne     more
        dec     words+1         ; below 0 there are no more
        bmi     done
more:   dec     words
        ldy     #0
        jsr     get_byte        ; the low byte
        sta     (at),y
        iny
        jsr     get_byte        ; the high byte
        sta     (at),y
        clc
        lda     at
        adc     #2
        sta     at
        bcc     next
        inc     at+1
        bne     next
done:   rts                     ; start: A, B and C are 0, and P is the stack base
