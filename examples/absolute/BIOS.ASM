; Names with addresses that don't move: of the BIOS data area and of video memory.
; Assembled by: nasm -f obj BIOS.ASM -o BIOS.OBJ

segment bios_data absolute=0x40

        resb    17h
keyboard_flags:
        resb    1

segment video absolute=0xB800

cells:  resw    2000

segment code align=16 class=CODE

..start:
        mov     ax, bios_data
        mov     es, ax
        mov     al, [es:keyboard_flags]
        mov     bx, video
        mov     es, bx
        mov     [es:cells], al
        mov     ax, 4C00h
        int     21h
