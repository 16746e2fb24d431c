; Prints a bar for each letter that is there: the letter, and a mark for each time. What marks a bar is chosen by a
; table of near pointers: a letter that is there more than five times has another mark. A far procedure that calls
; another one, in the next module.
; Assembled by: nasm -f obj BARS.ASM -o BARS.OBJ

group dgroup _DATA _BSS

extern  print_character                 ; far
extern  counters

segment _DATA public align=2 class=DATA

marks:  dw      few, many               ; offsets in the group
few:    db      '+'
many:   db      '#'

segment _BSS public align=2 class=BSS

segment BARS_TEXT public align=16 class=CODE

global  print_bars

print_bars:
        xor     bx, bx
letter: mov     cl, [bx + counters wrt dgroup]
        or      cl, cl
        jz      absent
        mov     dl, bl
        add     dl, 'A'
        call    far print_character
        mov     dl, ' '
        call    far print_character
        mov     si, marks wrt dgroup
        cmp     cl, 5
        jbe     bar
        add     si, 2
bar:    mov     si, [si]
        mov     dl, [si]
mark:   call    far print_character
        dec     cl
        jnz     mark
        mov     dl, 13
        call    far print_character
        mov     dl, 10
        call    far print_character
absent: inc     bx
        cmp     bx, 26
        jb      letter
        retf
