; Prints the character in DL, and has the program's stack.
; Assembled by: nasm -f obj PRINT.ASM -o PRINT.OBJ

segment PRINT_TEXT public align=16 class=CODE

global  print_character

print_character:
        mov     ah, 2
        int     21h
        retf

segment stack stack align=16 class=STACK

        resb    128
