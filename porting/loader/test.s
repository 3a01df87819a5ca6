; Tries loader.s on cc65's simulator: loads an image from standard input, and writes its words to standard output.
        .export         _main
        .import         _read, _write, pushax
P       = $80
at      = $82
words   = $84
        .bss
store:  .res    40960
byte:   .res    1
        .code
        .include        "loader.s"
_main:  jsr     load
        lda     #1
        ldx     #0
        jsr     pushax
        lda     #<store
        ldx     #>store
        jsr     pushax
        lda     P
        asl     a
        rol     P+1
        ldx     P+1
        jsr     _write
        lda     #0
        tax
        rts
get_byte:
        tya
        pha
        lda     #0
        tax
        jsr     pushax
        lda     #<byte
        ldx     #>byte
        jsr     pushax
        lda     #1
        ldx     #0
        jsr     _read
        pla
        tay
        lda     byte
        rts
