; Line numbers for a debugger.
; Assembled by: nasm -f obj -g -F borland LINES.ASM -o LINES.OBJ

segment code public align=16 class=CODE use16

global  twice

..start:
twice:
        mov     ax, [value]
        add     ax, ax
        mov     [value], ax
        retf

segment data public align=2 class=DATA use16

value:  dw      21
