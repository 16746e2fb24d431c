; Has DOS run in virtual 8086 mode from here on, as under EMM386, by DOSBox's interface of such a driver (VCPI): this
; goes to protected mode, from where the interface leads back to that mode.
        cpu 386
        org 100h
        mov     ax, cs
        movzx   eax, ax
        mov     [paragraph], eax
        shl     eax, 4
        mov     di, pages
        mov     si, gdt.of_driver
        mov     ax, 0DE01h
        int     67h
        or      ah, ah
        mov     al, 1
        jnz     ended
        mov     [entry], ebx
        mov     eax, [paragraph]
        shl     eax, 4
        lea     esi, [eax + switch]
        add     [switch.gdtr], eax
        add     [switch.idtr], eax
        add     [gdtr.base], eax
        mov     bx, gdt.code + 2
        call    set_base
        mov     bx, gdt.data + 2
        call    set_base
        add     eax, task
        mov     bx, gdt.task + 2
        call    set_base
        mov     ax, 0DE0Ch
        int     67h

protected:
        mov     ax, gdt.data - gdt
        mov     ss, ax
        mov     sp, top
        mov     ds, ax
        mov     eax, [paragraph]
%rep 4
        push    eax                     ; GS, FS, DS, ES
%endrep
        push    eax                     ; SS:SP
        push    dword top
        push    dword 0                 ; flags, by the interface
        push    eax                     ; CS:IP
        push    dword virtual
        mov     ax, 0DE0Ch
        call    dword far [entry]

virtual: sti
        xor     al, al
ended:  mov     ah, 4Ch
        int     21h

set_base: mov   [bx], ax
        ror     eax, 16
        mov     [bx + 2], al
        ror     eax, 16
        ret

        align   8
gdt:    dq      0
.code:  dq      00009A000000FFFFh
.data:  dq      000092000000FFFFh
.task:  dq      0000890000000067h
.of_driver: times 3 dq 0
gdtr:   dw      $ - gdt - 1
.base:  dd      gdt
idtr:   dw      0
        dd      0
switch: dd      0                       ; no pages
.gdtr:  dd      gdtr
.idtr:  dd      idtr
        dw      0, gdt.task - gdt
        dd      protected
        dw      gdt.code - gdt
entry:  dd      0
        dw      gdt.of_driver - gdt
paragraph: dd     0
task:   times 68h db 0
        absolute $
pages:  resb    1000h
        resb    200h
top:
