; Starts a program of 32 bits under DOS, or in DOSBox: it takes what extended memory there is, reads the program behind
; this stub into it, and runs it there in protected mode, without interrupts. For each call of DOS it goes back to real
; mode. There must be an XMS driver (HIMEM.SYS; DOSBox has one) and no EMM386.
        cpu 386
        section header start=0 vstart=0
        db      "MZ"
        dw      total % 512, (total + 511) / 512
        dw      0, 2, 1000h, 1000h      ; no relocations, two paragraphs of header, 64 KB behind the file
        dw      0, 0FFF0h               ; SS:SP
        dw      0, start, 0             ; sum, IP, CS
        dw      1Ch, 0
        times 32 - ($ - $$) db 0

        section code start=32 vstart=0
buffer  equ     4000h                   ; 32 KB that DOS reads and writes

        bits 32
; called as 20h:0 by the program: a call of DOS with the registers of regs
dos:    pushad
        mov     ax, 30h
        mov     ds, ax
        mov     [saved], esp
        jmp     28h:leave32
        bits 16
leave32: mov    ax, 30h
        mov     ss, ax
        mov     es, ax
        mov     fs, ax
        mov     gs, ax
        mov     eax, cr0
        and     al, 0FEh
        mov     cr0, eax
        db      0EAh                    ; jmp CS:real
        dw      real
real_cs: dw     0
real:   mov     ax, cs
        mov     ds, ax
        mov     ss, ax
        mov     sp, 0FFF0h
        sti
        cmp     byte [r_ax + 1], 4Ch
        jne     .call
        call    give_back
.call:  push    ds                      ; what DI points to is in this segment too
        pop     es
        mov     si, [r_si]
        mov     di, [r_di]
        mov     bx, [r_bx]
        mov     cx, [r_cx]
        mov     dx, [r_dx]
        mov     ax, [r_ax]
        int     21h
        mov     [cs:r_ax], ax
        mov     [cs:r_bx], bx
        mov     [cs:r_cx], cx
        mov     [cs:r_dx], dx
        pushf
        pop     word [cs:r_flags]
enter32: cli
        mov     ax, cs
        mov     ds, ax
        lgdt    [gdtr]
        mov     eax, cr0
        or      al, 1
        mov     cr0, eax
        jmp     dword 20h:entered
        bits 32
entered: mov    ax, 30h
        mov     ds, ax
        mov     ebx, [base]
        mov     ecx, [size]
        mov     edx, [here]
        mov     esi, [saved]
        mov     ax, 10h
        mov     ss, ax
        mov     esp, esi
        mov     ds, ax
        mov     es, ax
        mov     fs, ax
        mov     gs, ax
        popad
        retf
        bits 16

start:  mov     ax, cs
        mov     ds, ax
        mov     [psp], es
        mov     [real_cs], ax
        movzx   eax, ax
        shl     eax, 4
        mov     [here], eax
        mov     dx, no_real
        smsw    ax
        test    al, 1
        jnz     fail
        mov     dx, no_xms
        mov     ax, 4300h
        int     2Fh
        cmp     al, 80h
        jne     fail
        mov     ax, 4310h
        int     2Fh
        mov     [xms], bx
        mov     [xms + 2], es
        mov     ah, 8
        call    far [xms]
        movzx   edx, ax
        push    edx
        shl     edx, 10
        mov     [size], edx
        pop     edx
        mov     ah, 9
        call    far [xms]
        cmp     ax, 1
        mov     cx, dx
        mov     dx, no_xms
        jne     fail
        mov     dx, cx
        mov     [move.to_handle], dx
        mov     ah, 0Ch
        call    far [xms]
        mov     [base], bx
        mov     [base + 2], dx
        mov     ah, 5
        call    far [xms]
        mov     es, [psp]               ; this file's path stands behind the environment
        mov     es, [es:2Ch]
        xor     di, di
.seek:  cmp     word [es:di], 0
        je      .found
        inc     di
        jmp     .seek
.found: lea     dx, [di + 4]
        push    ds
        push    es
        pop     ds
        mov     ax, 3D00h
        int     21h
        pop     ds
        mov     dx, no_file
        jc      fail
        mov     bx, ax
        mov     ax, 4200h
        xor     cx, cx
        mov     dx, total
        int     21h
        mov     ax, ds
        mov     [move.from + 2], ax
.read:  mov     ah, 3Fh
        mov     cx, 8000h
        mov     dx, buffer
        int     21h
        or      ax, ax
        jz      .whole
        inc     ax
        and     al, 0FEh
        mov     [move.length], ax
        mov     si, move
        mov     ah, 0Bh
        call    far [xms]
        cmp     ax, 1
        jne     .small
        add     dword [move.to], 8000h
        jmp     .read
.small: call    give_back
        mov     dx, no_room
        jmp     fail
.whole: mov     ah, 3Eh
        int     21h
        mov     eax, [base]             ; descriptors of the program's memory and of this segment
        mov     edi, gdt + 8
        call    set_base
        mov     edi, gdt + 10h
        call    set_base
        mov     eax, [here]
        mov     edi, gdt + 20h
        call    set_base
        mov     edi, gdt + 28h
        call    set_base
        mov     edi, gdt + 30h
        call    set_base
        add     eax, gdt
        mov     [gdtr + 2], eax
        cli
        lgdt    [gdtr]
        mov     eax, cr0
        or      al, 1
        mov     cr0, eax
        jmp     dword 20h:first
        bits 32
first:  mov     ax, 30h
        mov     ds, ax
        mov     ebx, [base]
        mov     ecx, [size]
        mov     edx, [here]
        mov     ax, 10h
        mov     ss, ax
        lea     esp, [ecx - 16]
        mov     ds, ax
        mov     es, ax
        mov     fs, ax
        mov     gs, ax
        jmp     8:1000h
        bits 16

; gives the extended memory back, and the line A20
give_back: mov  dx, [move.to_handle]
        mov     ah, 0Dh                 ; unlock
        call    far [xms]
        mov     dx, [move.to_handle]
        mov     ah, 0Ah                 ; free
        call    far [xms]
        mov     ah, 6                   ; A20
        call    far [xms]
        ret

set_base: mov   [di + 2], ax
        ror     eax, 16
        mov     [di + 4], al
        mov     [di + 7], ah
        ror     eax, 16
        ret

; ends with the text at DX, up to a `$`, on standard error
fail:   mov     cx, -1
        mov     bx, dx
.each:  inc     cx
        inc     bx
        cmp     byte [bx - 1], "$"
        jne     .each
        mov     bx, 2
        mov     ah, 40h
        int     21h
        mov     ax, 4C03h
        int     21h

        align 8
gdt:    dq      0
        dq      00CF9A000000FFFFh       ; 08 the program's code
        dq      00CF92000000FFFFh       ; 10 its data
        dq      00CF92000000FFFFh       ; 18
        dq      00409A000000FFFFh       ; 20 this segment as code of 32 bits
        dq      00009A000000FFFFh       ; 28 and of 16
        dq      000092000000FFFFh       ; 30 and as data
gdtr:   dw      $ - gdt - 1
        dd      0
move:
.length: dd     0
.from_handle: dw 0
.from:  dw      buffer, 0
.to_handle: dw  0
.to:    dd      1000h
saved:  dd      0
base:   dd      0
size:   dd      0
here:   dd      0
xms:    dd      0
no_real: db     "this needs DOS without EMM386, and not in a window", 13, 10, "$"
no_xms: db      "this needs HIMEM.SYS", 13, 10, "$"
no_room: db     "this needs more extended memory", 13, 10, "$"
no_file: db     "the program's file can't be read", 13, 10, "$"
        times 800h - ($ - $$) db 0
regs:                                   ; at 800h
r_ax:   dw      0
r_bx:   dw      0
r_cx:   dw      0
r_dx:   dw      0
r_si:   dw      0
r_di:   dw      0
r_flags: dw     0
psp:    dw      0
total   equ     32 + 800h + 16
