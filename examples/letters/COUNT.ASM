; Counts the letters of the text, small and capital ones alike. A far procedure in a segment of its own.
; Assembled by: nasm -f obj COUNT.ASM -o COUNT.OBJ

group dgroup _DATA _BSS

extern  text, counters

segment _DATA public align=1 class=DATA

segment _BSS public align=2 class=BSS

segment COUNT_TEXT public align=16 class=CODE

global  count_letters

count_letters:
        mov     si, text wrt dgroup
        xor     bh, bh
next:   mov     bl, [si]
        inc     si
        or      bl, bl
        jz      done
        or      bl, 20h
        sub     bl, 'a'
        cmp     bl, 26
        jae     next
        inc     byte [bx + counters wrt dgroup]
        jmp     next
done:   retf
