; An INTCODE interpreter for an 8086 without an operating system, at the level core of docs/porting.md.
;
; It boots from a floppy disk: nasm -f bin -o boot.bin boot.asm, or with -DSCREEN to use the BIOS's keyboard and screen instead of
; the first serial line. The code takes three sectors. The bytes after it are records, one after another, without gaps:
;
;       word   the stack base, or 0 after the last record
;       word   the number of bytes of input that the record has, or 65535 if the input is typed, up to the byte 4 (Ctrl-D)
;       words  the store from address 0 up to the stack base
;       bytes  the input
;
; Each record is run in turn. After one with its own input the bytes 16 and F, Z or B are written: it has finished, or ended by a
; division by zero or a bad instruction. A byte 16 that such a program writes is written twice.
;
; With -DWORDS=N the store has N words instead of 65,536. A program that needs another cell ends with the byte S, and then the machine.

        cpu     8086
        org     0x7C00

%ifndef WORDS
%define WORDS   65536
%endif
%if WORDS < 65536
SECTORS equ     4                       ; of this code
%else
SECTORS equ     3
%endif
STORE   equ     0x1000                  ; the segment of the cells up to 32767; the others are in the next 64 KB
GIVEN   equ     0x3000                  ; the segment of the input
SECTOR  equ     0x8600                  ; where a sector is read to
COM     equ     0x3F8
STACK   equ     0x7000                  ; below this code's page: writing beside code is slow in an emulator

; Registers while a program runs: DI = A, DX = B, SI = C, BP = P; BX = D, AX and CX are free.

start:  xor     ax, ax
        mov     ds, ax
        mov     ss, ax
        mov     sp, STACK
        jmp     0:.here
.here:  mov     [drive], dl
        mov     es, ax
        mov     bx, start + 512
        mov     cx, 2
        xor     dh, dh
.again: mov     ax, 0x0200 + SECTORS - 1 ; the other sectors of this code
        int     0x13
        jc      .again                  ; a motor that isn't fast enough yet
        jmp     begin

; ---- The disk: a stream of bytes from the sector after the code on

next_word:                              ; AX: the next two bytes, the low one first
        call    next_byte
        push    ax
        call    next_byte
        mov     ah, al
        pop     cx
        mov     al, cl
        ret

next_byte:                              ; AL: the next byte; keeps BX, DX, SI, DI, ES
        push    si
        mov     si, [disk_at]
        cmp     si, SECTOR + 512
        jb      .there
        call    read_sector
        mov     si, SECTOR
.there: lodsb
        mov     [disk_at], si
        pop     si
        ret

read_sector:                            ; reads the next sector of a disk of 80 tracks, 2 heads and 18 sectors
        push    bx
        push    dx
        push    es
        mov     ax, [sector]
        inc     word [sector]
        mov     bl, 18
        div     bl                      ; AL: track and head, AH: sector
        mov     cl, ah
        inc     cl
        mov     ch, al
        shr     ch, 1
        and     al, 1
        mov     dh, al
        mov     dl, [drive]
        xor     ax, ax
        mov     es, ax
        mov     bx, SECTOR
.again: mov     ax, 0x0201
        int     0x13
        jc      .again
        pop     es
        pop     dx
        pop     bx
        ret

disk_at dw      SECTOR + 512
sector  dw      SECTORS
drive   db      0

        times   510 - ($ - $$) db 0
        dw      0xAA55                  ; the mark of a boot sector

; ---- Input and output

%ifdef SCREEN

open_line:
        ret

send:   push    bp                      ; writes AL; a line feed also goes to the line's beginning
.again: mov     ah, 0x0E
        mov     bx, 7
        int     0x10
        cmp     al, 10
        mov     al, 13
        je      .again
        pop     bp                      ; some BIOSes change it
        ret

receive:                                ; AL: a key, which is echoed; the key Enter is a line feed
        mov     ah, 0
        int     0x16
        cmp     al, 13
        jne     .echo
        mov     al, 10
.echo:  push    ax
        call    send
        pop     ax
        ret

%else

open_line:                              ; 115200 bits a second, 8 bits, no parity
        mov     si, .settings
.next:  lodsw
        or      ax, ax
        jz      .done
        mov     dx, COM
        add     dl, al
        mov     al, ah
        out     dx, al
        jmp     .next
.done:  ret
.settings db    3, 0x80, 0, 1, 1, 0, 3, 3, 4, 3
        dw      0

send:   push    dx                      ; writes AL
        mov     ah, al
        mov     dx, COM + 5
.wait:  in      al, dx
        test    al, 0x20
        jz      .wait
        mov     al, ah
        mov     dx, COM
        out     dx, al
        pop     dx
        ret

receive:                                ; AL: a byte
        push    dx
        mov     dx, COM + 5
.wait:  in      al, dx
        test    al, 1
        jz      .wait
        mov     dx, COM
        in      al, dx
        pop     dx
        ret

%endif

read:                                   ; AX: the next byte of the input, or 65535 at its end
        mov     ax, 65535
        cmp     byte [ended], 0
        jne     .end
        cmp     [given], ax
        je      .typed
        mov     bx, [given_at]
        cmp     bx, [given]
        je      .last
        inc     word [given_at]
        push    ds
        mov     ax, GIVEN
        mov     ds, ax
        mov     al, [bx]
        pop     ds
        jmp     .byte
.typed: call    receive
        cmp     al, 4
        jne     .byte
.last:  mov     byte [ended], 1
        mov     ax, 65535
        ret
.byte:  mov     ah, 0
.end:   ret

write:  push    ax                      ; writes AL, as one of the bytes of a program
        call    send
        pop     ax
        cmp     al, 16
        jne     .done
        cmp     word [given], 65535
        jne     send
.done:  ret

; ---- The store

locate:                                 ; ES:BX: the cell BX; uses AX
%if WORDS < 65536
        cmp     bx, WORDS
        jae     outside
%endif
        add     bx, bx
        sbb     ax, ax
        and     ax, 0x1000
        add     ax, STORE
        mov     es, ax
        ret

get:    push    bx                      ; AX: the content of the cell BX
        call    locate
        mov     ax, [es:bx]
        pop     bx
        ret

put:    push    bx                      ; the cell BX becomes CX
        call    locate
        mov     [es:bx], cx
        pop     bx
        ret

fetch:  push    bx                      ; AX: the word at C, which goes on
        mov     bx, si
        inc     si
        call    get
        pop     bx
        ret

; ---- The program

begin:  call    open_line
next_program:
%if WORDS < 65536
        cmp     byte [over], 0
        jne     off
%endif
        call    clear
        call    next_word
        or      ax, ax
        jz      off
        mov     bp, ax
        call    next_word
        mov     [given], ax
        xor     bx, bx
.word:  call    next_word
        mov     cx, ax
        call    put
        inc     bx
        cmp     bx, bp
        jne     .word
        mov     ax, GIVEN
        mov     es, ax
        xor     di, di
        mov     cx, [given]
        mov     [given_at], di
        inc     cx                      ; typed input is 65535, which is no bytes
        jz      .ready
        dec     cx
.byte:  jcxz    .ready
        push    cx
        call    next_byte
        stosb
        pop     cx
        dec     cx
        jmp     .byte
.ready: mov     word [selected], 0x0101
        mov     word [ended], 0
        xor     di, di
        xor     dx, dx
        xor     si, si
        jmp     step

clear:  mov     ax, STORE               ; all cells become 0
%if WORDS > 32768
        mov     cx, 32768
        call    .part
        mov     ax, STORE + 0x1000
        mov     cx, WORDS - 32768
%else
        mov     cx, WORDS
%endif
.part:  mov     es, ax
        xor     ax, ax
        xor     di, di
        rep     stosw
        ret

%if WORDS < 65536
outside:
        mov     sp, STACK
        mov     byte [over], 1
        mov     bx, no_cell
        mov     al, 'S'
        jmp     end_run
%endif
zero_divide:
        mov     bx, divided
        mov     al, 'Z'
        jmp     end_run
bad:    mov     bx, bad_instruction
        mov     al, 'B'
        jmp     end_run
finish: mov     bx, nothing
        mov     al, 'F'
end_run:
        cmp     word [given], 65535
        je      tell
        push    ax
        mov     al, 16
        call    send
        pop     ax
        call    send
        jmp     next_program
tell:   mov     al, [bx]                ; a typed program's ending, in words
        inc     bx
        or      al, al
        jz      next_program
        push    bx
        call    send
        pop     bx
        jmp     tell

off:    mov     ax, 0x5301              ; power off, by the BIOS's power management, if it has one
        xor     bx, bx
        int     0x15
        mov     ax, 0x530E
        mov     cx, 0x0102
        int     0x15
        mov     ax, 0x5307
        mov     bx, 1
        mov     cx, 3
        int     0x15
.halt:  hlt
        jmp     .halt

; ---- One instruction

step:   call    fetch
        mov     cx, ax
        mov     bx, ax
        and     bx, 511
        test    ch, 2
        jz      .short
        call    fetch
        mov     bx, ax
.short: test    ch, 8
        jz      .no_p
        add     bx, bp
.no_p:  test    ch, 4
        jz      .no_g
        add     bx, 8
.no_g:  test    ch, 16
        jz      .direct
        call    get
        mov     bx, ax
.direct:
        mov     al, ch
        mov     cl, 4
        shr     al, cl
        and     ax, 14
        xchg    ax, bx
        mov     cx, [functions + bx]
        xchg    ax, bx
        jmp     cx

load:   mov     dx, di
        mov     di, bx
        jmp     step
store:  mov     cx, di
        call    put
        jmp     step
add_d:  add     di, bx
        jmp     step
true:   or      di, di
        jnz     jump
        jmp     step
false:  or      di, di
        jnz     step
jump:   mov     si, bx
        jmp     step
call_a: add     bx, bp
        mov     cx, bp
        call    put
        mov     bp, bx
        inc     bx
        mov     cx, si
        call    put
        mov     si, di
        jmp     step
operate:
        cmp     bx, 34
        ja      bad
        add     bx, bx
        jmp     [operations + bx]

x1:     mov     bx, di
        call    get
        mov     di, ax
        jmp     step
x2:     neg     di
        jmp     step
x3:     not     di
        jmp     step
x4:     mov     bx, bp
        inc     bx
        call    get
        mov     si, ax
        dec     bx
        call    get
        mov     bp, ax
        jmp     step
x5:     mov     ax, dx
        push    dx
        imul    di
        pop     dx
        mov     di, ax
        jmp     step
x6:     call    divide
        mov     di, ax
        jmp     step
x7:     call    divide
        mov     di, cx
        jmp     step
divide: or      di, di                  ; AX: the quotient, CX: the remainder of B and A
        jz      .zero
        mov     ax, dx
        xor     cx, cx
        cmp     di, -1                  ; -32768 / -1 would be an interrupt
        je      .negate
        push    dx
        cwd
        idiv    di
        mov     cx, dx
        pop     dx
        ret
.negate:
        neg     ax
        ret
.zero:  pop     ax                      ; the return address
        jmp     zero_divide
x8:     add     di, dx
        jmp     step
x9:     sub     di, dx
        neg     di
        jmp     step
x10:    cmp     dx, di
        je      yes
        jmp     no
x11:    cmp     dx, di
        jne     yes
        jmp     no
x12:    cmp     dx, di
        jl      yes
        jmp     no
x13:    cmp     dx, di
        jge     yes
        jmp     no
x14:    cmp     dx, di
        jg      yes
        jmp     no
x15:    cmp     dx, di
        jle     yes
no:     xor     di, di
        jmp     step
yes:    mov     di, 65535
        jmp     step
x16:    mov     cx, di
        mov     di, dx
        cmp     cx, 15
        ja      no
        shl     di, cl
        jmp     step
x17:    mov     cx, di
        mov     di, dx
        cmp     cx, 15
        ja      no
        shr     di, cl
        jmp     step
x18:    and     di, dx
        jmp     step
x19:    or      di, dx
        jmp     step
x20:    xor     di, dx
        jmp     step
x21:    xor     di, dx
        not     di
        jmp     step
x23:    call    fetch
        mov     cx, ax
        call    fetch
        push    ax
        jcxz    .default
.next:  call    fetch
        cmp     ax, di
        je      .found
        inc     si
        loop    .next
.default:
        pop     si
        jmp     step
.found: pop     ax
        call    fetch
        mov     si, ax
        jmp     step
x24:    mov     bx, selected
        jmp     select
x25:    mov     bx, selected + 1
select: mov     byte [bx], 0
        cmp     di, 1
        jne     .done
        mov     byte [bx], 1
.done:  jmp     step
x26:    mov     ax, 65535
        cmp     byte [selected], 0
        je      .none
        call    read
.none:  mov     di, ax
        jmp     step
x27:    cmp     byte [ended + 1], 0
        jne     .drop
        cmp     byte [selected + 1], 0
        je      .drop
        mov     ax, di
        call    write
.drop:  jmp     step
x28:    mov     cx, sysin
        jmp     find
x29:    mov     cx, sysprint
find:   push    si                      ; A: 1 if the string at A is the name at CX, else 0
        mov     si, cx
        mov     bx, di
        xor     di, di
        mov     cl, [si]
        inc     cl
.next:  call    get
        cmp     ah, [si]
        jne     .done
        inc     si
        dec     cl
        jz      .found
        cmp     al, [si]
        jne     .done
        inc     si
        inc     bx
        dec     cl
        jnz     .next
.found: inc     di
.done:  pop     si
        jmp     step
x33:    xor     bx, bx
        jmp     end_stream
x34:    mov     bx, 1
end_stream:
        cmp     byte [selected + bx], 0
        je      .done
        mov     byte [ended + bx], 1
        mov     byte [selected + bx], 0
.done:  jmp     step

functions:
        dw      load, store, add_d, jump, true, false, call_a, operate
operations:
        dw      bad, x1, x2, x3, x4, x5, x6, x7, x8, x9, x10, x11, x12, x13, x14, x15, x16, x17, x18, x19, x20, x21, finish, x23
        dw      x24, x25, x26, x27, x28, x29, bad, bad, bad, x33, x34

sysin   db      5, "SYSIN"
sysprint db     8, "SYSPRINT"
nothing db      0
divided db      10, "division by zero", 10, 0
bad_instruction db 10, "bad instruction", 10, 0
%if WORDS < 65536
no_cell db      10, "no such cell", 10, 0
over    db      0
%endif

selected db     0, 0                    ; whether the input, the output is selected,
ended   db      0, 0                    ; and whether it has ended
given   dw      0                       ; the bytes of input that the record has
given_at dw     0

        times   SECTORS * 512 - ($ - $$) db 0
