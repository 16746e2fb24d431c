; What NEAR.ASM calls and jumps to: prints a text and ends. It stands in the same segment.
; Assembled by: nasm -f obj EXIT.ASM -o EXIT.OBJ

global  leave_program, start_text

segment _TEXT public align=1 class=CODE

leave_program:
        push    cs
        pop     ds
        mov     ah, 9
        int     21h
        mov     ax, 4C00h
        int     21h

start_text:
        db      'Called from another module, in one segment.', 13, 10, '$'

segment stack stack align=16 class=STACK

        resb    64
