; Prints a line and ends, by way of DOS.
; Assembled by: nasm -f obj HELLO.ASM -o HELLO.OBJ

segment code align=16 class=CODE

..start:
        mov     ax, data
        mov     ds, ax
        mov     ax, stack
        mov     ss, ax
        mov     sp, stack_end
        mov     dx, greeting
        mov     ah, 9
        int     21h
        mov     ax, 4C00h
        int     21h

segment data align=16 class=DATA

greeting:
        db      'Hello from a linked program.', 13, 10, '$'

segment stack stack align=16 class=STACK

        resb    256
stack_end:
