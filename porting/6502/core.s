; An INTCODE interpreter for the 6502, at the level store of docs/porting.md: its store has 20,480 words.
;
;       cl65 -t sim6502 -o core core.s
;       sim65 core IMAGE
;
; IMAGE has the stack base and the words from address 0 up to it, each with its low byte first. The status is 0 if the run ends by
; X22, 1 if by a division by zero or a bad instruction, 2 if the program needs a cell that the store hasn't, 3 if there is no image.
; For another machine write `get_byte`, `put_byte` and the reading of the image anew; nothing else depends on the system.
;
; With WORDS the store has another number of words, a multiple of 256. With BASE, the stack base, a file `image` is a part of the
; program. Its segments stay in ROM, but for the cells from RAM up to RAM_END, without the last. All other cells are in RAM; only the
; first GLOBALS globals have one. The status is 4 if the program writes to a cell in ROM. `run --rom` defines these symbols.

        .export         _main
        .import         _open, _read, _write, __argv, pushax
        .forceimport    initmainargs
        .importzp       ptr1

.ifndef WORDS
WORDS   = 20480
.endif
SEGMENTS = 520                          ; the first cell that may be in ROM
.ifdef BASE
.ifndef RAM
RAM     = BASE                          ; no cell of the segments is written
RAM_END = BASE
.endif
.ifndef GLOBALS
GLOBALS = 512
.endif
LOW     = 8 + GLOBALS                   ; the first cells, which are in RAM
.endif

; The zero page from $80 on; the first bytes are those of the library.
rA      = $80
rB      = $82
rC      = $84
rP      = $86
rD      = $88
rW      = $8A                           ; the instruction's word
rT      = $8C                           ; what only lives in one instruction
rU      = $8E
cell    = $90                           ; the address of a cell's bytes
name    = $92
sign    = $94

        .bss
.ifdef BASE
low:    .res 2 * LOW                    ; the boot code and the globals,
middle: .res 2 * (RAM_END - RAM) + 1    ; those of the segments that are written,
high:   .res 2 * (WORDS - BASE)         ; and those from the stack base on
.else
store:  .res 2 * WORDS
.endif
file:   .res 2
byte:   .res 1
selected: .res 2                        ; whether the input, the output is selected,
ended:  .res 2                          ; and whether it has ended
frame:  .res 1                          ; the stack pointer of _main

        .rodata
.ifdef BASE
rom:    .incbin "image", 2
ends:   .word   LOW, SEGMENTS, RAM, RAM_END, BASE
parts:  .word   low, 0, rom, middle - 2 * RAM, rom, high - 2 * BASE
.endif
sysin:  .byte   5, "SYSIN"
sysprint: .byte 8, "SYSPRINT"

functions:
        .word   load-1, store_a-1, add_d-1, jump-1, if_true-1, if_false-1, call-1, operate-1
operations:
        .word   bad-1, x1-1, x2-1, x3-1, x4-1, x5-1, x6-1, x7-1, x8-1, x9-1, x10-1, x11-1, x12-1, x13-1, x14-1, x15-1, x16-1, x17-1
        .word   x18-1, x19-1, x20-1, x21-1, finish-1, x23-1, x24-1, x25-1, x26-1, x27-1, x28-1, x29-1, bad-1, bad-1, bad-1, x33-1, x34-1

        .code

; ---- Macros on words in the zero page

.macro  move    from, to
        lda     from
        sta     to
        lda     from+1
        sta     to+1
.endmacro

.macro  set     to, value
        lda     #<(value)
        sta     to
        lda     #>(value)
        sta     to+1
.endmacro

.macro  bump    which                   ; adds 1
        .local  done
        inc     which
        bne     done
        inc     which+1
done:
.endmacro

.macro  add     from, to
        clc
        lda     to
        adc     from
        sta     to
        lda     to+1
        adc     from+1
        sta     to+1
.endmacro

.macro  negate  which
        sec
        lda     #0
        sbc     which
        sta     which
        lda     #0
        sbc     which+1
        sta     which+1
.endmacro

.macro  load_cell address, to           ; to := the content of the cell at address
        ldx     #address
        jsr     locate
        ldy     #0
        lda     (cell),y
        pha
        iny
        lda     (cell),y
        sta     to+1
        pla
        sta     to
.endmacro

.macro  store_cell address, from
        ldx     #address
        jsr     locate_to_write
        ldy     #0
        lda     from
        sta     (cell),y
        iny
        lda     from+1
        sta     (cell),y
.endmacro

.macro  fetch   to                      ; to := the word at C, which goes on
        load_cell rC, to
        bump    rC
.endmacro

.ifdef BASE

locate: ldy     #0                      ; Y := twice the part that has the cell: 1 has none, 2 and 4 are in ROM
next_part:
        lda     0,x
        cmp     ends,y
        lda     1,x
        sbc     ends+1,y
        bcc     located
        iny
        iny
        cpy     #10
        bne     next_part
located:
        cpy     #2
        beq     outside
        lda     0,x                     ; cell := the address of the cell whose number is in the zero page at X
        sta     cell
        lda     1,x
        cmp     #>WORDS
        bcs     outside
        asl     cell
        rol     a
        sta     cell+1
        clc
        lda     cell
        adc     parts,y
        sta     cell
        lda     cell+1
        adc     parts+1,y
        sta     cell+1
        rts

locate_to_write:                        ; the same, unless the cell is in ROM
        jsr     locate
        cpy     #4
        beq     in_rom
        cpy     #8
        beq     in_rom
        rts
in_rom: lda     #4
        jmp     end_run

.macro  copy    from, to, words         ; puts the first content of cells into RAM
        set     name, from
        set     cell, to
        set     rT, words
        jsr     copy_words
.endmacro

copy_words:
        lda     rT
        ora     rT+1
        beq     copied
        ldy     #0
        lda     (name),y
        sta     (cell),y
        iny
        lda     (name),y
        sta     (cell),y
        bump    name
        bump    name
        bump    cell
        bump    cell
        lda     rT
        bne     copied_low
        dec     rT+1
copied_low:
        dec     rT
        jmp     copy_words
copied: rts

.else

locate_to_write:
locate: lda     0,x                     ; cell := the address of the cell whose number is in the zero page at X
        sta     cell
        lda     1,x
        cmp     #>WORDS
        bcs     outside
        asl     cell
        rol     a
        sta     cell+1
        clc
        lda     cell
        adc     #<store
        sta     cell
        lda     cell+1
        adc     #>store
        sta     cell+1
        rts

.endif

outside:
        lda     #2
        jmp     end_run

; ---- The system: a file, and bytes of standard input and output

_main:  tsx
        stx     frame
.ifdef BASE
        copy    rom, low, LOW
        copy    rom + 2 * RAM, middle, RAM_END - RAM
        set     rP, BASE
.else
        lda     __argv                  ; the image's path is argv[1]
        sta     ptr1
        lda     __argv+1
        sta     ptr1+1
        ldy     #3
        lda     (ptr1),y
        tax
        dey
        ora     (ptr1),y
        beq     no_image
        lda     (ptr1),y
        jsr     pushax
        lda     #1                      ; to be read
        ldx     #0
        jsr     pushax
        ldy     #4
        jsr     _open
        sta     file
        stx     file+1
        inx
        beq     no_image
        lda     #<rP
        ldx     #>rP
        ldy     #2
        jsr     read_file
        lda     rP+1
        cmp     #>WORDS
        bcs     outside
        move    rP, rT
        asl     rT
        rol     rT+1
        lda     file
        ldx     file+1
        jsr     pushax
        lda     #<store
        ldx     #>store
        jsr     pushax
        lda     rT
        ldx     rT+1
        jsr     _read
.endif
        lda     #0
        sta     rA
        sta     rA+1
        sta     rB
        sta     rB+1
        sta     rC
        sta     rC+1
        sta     ended
        sta     ended+1
        lda     #1
        sta     selected
        sta     selected+1
        jmp     step
no_image:
        lda     #3
        jmp     end_run

read_file:                              ; reads Y bytes of the file to the address in A and X
        sty     sign
        pha
        txa
        pha
        lda     file
        ldx     file+1
        jsr     pushax
        pla
        tax
        pla
        jsr     pushax
        lda     sign
        ldx     #0
        jmp     _read

get_byte:                               ; rA := the next byte of standard input, or 65535
        lda     #0
        tax
        jsr     pushax
        lda     #<byte
        ldx     #>byte
        jsr     pushax
        lda     #1
        ldx     #0
        jsr     _read
        cmp     #1
        bne     no_byte
        lda     byte
        sta     rA
        lda     #0
        sta     rA+1
        rts
no_byte:
        sta     ended                   ; anything but 0 will do
        lda     #1
        sta     ended
        set     rA, 65535
        rts

put_byte:                               ; writes the low byte of rA to standard output
        lda     rA
        sta     byte
        lda     #1
        ldx     #0
        jsr     pushax
        lda     #<byte
        ldx     #>byte
        jsr     pushax
        lda     #1
        ldx     #0
        jmp     _write

finish: lda     #0
        .byte   $2C                     ; skips the next instruction
bad:    lda     #1
end_run:
        ldx     frame
        txs
        ldx     #0
        rts

; ---- One instruction

step:   fetch   rW
        lda     rW
        sta     rD
        lda     rW+1
        and     #1
        sta     rD+1
        lda     rW+1
        and     #2
        beq     short
        fetch   rD
short:  lda     rW+1
        and     #8
        beq     no_p
        add     rP, rD
no_p:   lda     rW+1
        and     #4
        beq     no_g
        clc
        lda     rD
        adc     #8
        sta     rD
        bcc     no_g
        inc     rD+1
no_g:   lda     rW+1
        and     #16
        beq     direct
        load_cell rD, rD
direct: lda     rW+1
        lsr     a
        lsr     a
        lsr     a
        lsr     a
        and     #14
        tax
        lda     functions+1,x
        pha
        lda     functions,x
        pha
        rts                             ; goes to the function

load:   move    rA, rB
        move    rD, rA
        jmp     step
store_a:
        store_cell rD, rA
        jmp     step
add_d:  add     rD, rA
        jmp     step
if_true:
        lda     rA
        ora     rA+1
        bne     jump
        jmp     step
if_false:
        lda     rA
        ora     rA+1
        beq     jump
        jmp     step
jump:   move    rD, rC
        jmp     step
call:   add     rP, rD
        store_cell rD, rP
        move    rD, rP
        bump    rD
        store_cell rD, rC
        move    rA, rC
        jmp     step
operate:
        lda     rD+1
        bne     unknown
        lda     rD
        cmp     #35
        bcs     unknown
        asl     a
        tax
        lda     operations+1,x
        pha
        lda     operations,x
        pha
        rts                             ; goes to the operation

unknown:
        jmp     bad

x1:     load_cell rA, rA
        jmp     step
x2:     negate  rA
        jmp     step
x3:     lda     rA
        eor     #$FF
        sta     rA
        lda     rA+1
        eor     #$FF
        sta     rA+1
        jmp     step
x4:     move    rP, rT
        bump    rT
        load_cell rT, rC
        load_cell rP, rP
        jmp     step

x5:     move    rB, rT                  ; B * A, by adding B shifted for each bit of A
        set     rU, 0
        ldx     #16
x5_bit: lsr     rA+1
        ror     rA
        bcc     x5_none
        add     rT, rU
x5_none:
        asl     rT
        rol     rT+1
        dex
        bne     x5_bit
        move    rU, rA
        jmp     step

x6:     lda     rB+1                    ; the sign of the quotient
        eor     rA+1
        sta     sign
        jsr     divide
        move    rT, rA
        jmp     signed
x7:     lda     rB+1                    ; the sign of the remainder
        sta     sign
        jsr     divide
        move    rU, rA
signed: bit     sign
        bpl     x7_done
        negate  rA
x7_done:
        jmp     step

divide: lda     rA                      ; rT, rU := the quotient and the remainder of the magnitudes of B and A
        ora     rA+1
        bne     divisor
        jmp     bad
divisor:
        bit     rA+1
        bpl     positive
        negate  rA
positive:
        move    rB, rT
        bit     rT+1
        bpl     ready
        negate  rT
ready:  set     rU, 0
        ldx     #16
next_bit:
        asl     rT
        rol     rT+1
        rol     rU
        rol     rU+1
        sec                             ; the remainder is less than twice 32768, so that no bit is lost
        lda     rU
        sbc     rA
        tay
        lda     rU+1
        sbc     rA+1
        bcc     less
        sty     rU
        sta     rU+1
        inc     rT
less:   dex
        bne     next_bit
        rts

x8:     add     rB, rA
        jmp     step
x9:     sec
        lda     rB
        sbc     rA
        sta     rA
        lda     rB+1
        sbc     rA+1
        sta     rA+1
        jmp     step

x10:    jsr     equal
        beq     yes
        jmp     no
x11:    jsr     equal
        bne     yes
        jmp     no
x12:    jsr     order
        bcc     yes
        jmp     no
x13:    jsr     order
        bcs     yes
        jmp     no
x15:    jsr     equal
        beq     yes
        jsr     order
        bcc     yes
        jmp     no
x14:    jsr     equal
        beq     no
        jsr     order
        bcs     yes
no:     set     rA, 0
        jmp     step
yes:    set     rA, 65535
        jmp     step

equal:  lda     rA
        cmp     rB
        bne     unequal
        lda     rA+1
        cmp     rB+1
unequal:
        rts
order:  lda     rA+1                    ; carry clear if B < A as signed numbers
        eor     #$80
        sta     rT+1
        lda     rB+1
        eor     #$80
        cmp     rT+1
        bne     unequal
        lda     rB
        cmp     rA
        rts

x16:    jsr     count
        bcs     no
        beq     shifted
x16_bit:
        asl     rT
        rol     rT+1
        dex
        bne     x16_bit
shifted:
        move    rT, rA
        jmp     step
x17:    jsr     count
        bcs     no
        beq     shifted
x17_bit:
        lsr     rT+1
        ror     rT
        dex
        bne     x17_bit
        jmp     shifted
count:  move    rB, rT                  ; X := the places; carry set if more than 15
        lda     rA+1
        cmp     #1
        bcs     many
        ldx     rA
        cpx     #16
        bcs     many
        txa
        clc
many:   rts

.macro  bitwise operation, flip
        lda     rA
        operation rB
        eor     #flip
        sta     rA
        lda     rA+1
        operation rB+1
        eor     #flip
        sta     rA+1
        jmp     step
.endmacro

x18:    bitwise and, 0
x19:    bitwise ora, 0
x20:    bitwise eor, 0
x21:    bitwise eor, $FF

x23:    fetch   rT                      ; the count
        fetch   rD                      ; the default
x23_next:
        lda     rT
        ora     rT+1
        beq     x23_done
        fetch   rU
        lda     rU
        cmp     rA
        bne     x23_other
        lda     rU+1
        cmp     rA+1
        bne     x23_other
        load_cell rC, rD
x23_done:
        jmp     jump
x23_other:
        bump    rC
        lda     rT
        bne     x23_low
        dec     rT+1
x23_low:
        dec     rT
        jmp     x23_next

x24:    ldx     #0
        beq     select
x25:    ldx     #1
select: ldy     #0                      ; only stream 1 can be selected
        lda     rA+1
        bne     selects
        lda     rA
        cmp     #1
        bne     selects
        iny
selects:
        tya
        sta     selected,x
        jmp     step

x26:    lda     selected
        beq     x26_end
        lda     ended
        bne     x26_end
        jsr     get_byte
        jmp     step
x26_end:
        jmp     yes                     ; 65535
x27:    lda     selected+1
        beq     x27_drop
        lda     ended+1
        bne     x27_drop
        jsr     put_byte
x27_drop:
        jmp     step

x28:    set     name, sysin
        jmp     find
x29:    set     name, sysprint
find:   move    rA, rT                  ; A := 1 if the string at A is the name, else 0
        ldy     #0
        lda     (name),y
        tax
        inx
        stx     sign                    ; the bytes to compare: the length and the bytes after it
find_next:
        load_cell rT, rU
        lda     rU+1
        jsr     compare
        bne     find_other
        beq     find_first
find_other:
        jmp     no
find_first:
        lda     sign
        beq     found
        lda     rU
        jsr     compare
        bne     find_other
        bump    rT
        lda     sign
        bne     find_next
found:  set     rA, 1
        jmp     step
compare:
        ldy     #0                      ; compares A with the next byte of the name
        cmp     (name),y
        bne     compared
        bump    name
        dec     sign
        lda     #0
compared:
        rts

x33:    ldx     #0
        beq     end_stream
x34:    ldx     #1
end_stream:
        lda     selected,x
        beq     x34_done
        sta     ended,x
        lda     #0
        sta     selected,x
x34_done:
        jmp     step
