; Calls a procedure of another segment and module.
; Assembled by: nasm -f obj MAIN.ASM -o MAIN.OBJ

extern  greet

segment main_code align=16 class=CODE

..start:
        call    far greet
        mov     ax, 4C00h
        int     21h

segment stack stack align=16 class=STACK

        resb    64
