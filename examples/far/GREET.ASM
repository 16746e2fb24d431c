; A procedure that is called from another segment.
; Assembled by: nasm -f obj GREET.ASM -o GREET.OBJ

global  greet

segment greet_code align=16 class=CODE

greet:
        push    ds
        mov     ax, seg letter
        mov     ds, ax
        mov     dl, [letter]
        mov     ah, 2
        int     21h
        pop     ds
        retf

segment greet_data align=2 class=DATA

letter: db      'A'
