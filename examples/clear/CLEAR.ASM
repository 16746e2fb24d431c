; Clears its own data before it counts in it: DOS doesn't clear the memory behind the file's image.
; Counts the letters e of a text in a table of 256 counters, and prints how many there are.
; Assembled by: nasm -f obj CLEAR.ASM -o CLEAR.OBJ

segment code align=16 class=CODE

..start:
        mov     ax, counters_segment
        mov     es, ax
        mov     di, counters
        mov     cx, counters_end - counters
        xor     al, al
        cld
        rep     stosb

        mov     ax, data
        mov     ds, ax
        mov     si, text
        xor     bh, bh
next:
        lodsb
        cmp     al, '$'
        je      done
        mov     bl, al
        inc     byte [es:bx + counters]
        jmp     next
done:
        mov     al, [es:counters + 'e']
        add     al, '0'
        mov     [count], al
        mov     dx, text
        mov     ah, 9
        int     21h
        mov     ax, 4C00h
        int     21h

segment data align=16 class=DATA

text:
        db      'Letters e in these words: '
count:
        db      '?', 13, 10, '$'

segment counters_segment align=16 class=BSS

counters:
        resb    256
counters_end:

segment stack stack align=16 class=STACK

        resb    256
