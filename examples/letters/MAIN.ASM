; Counts the letters of a text and prints a bar for each. This module starts: it clears the counters, and then
; takes one step after the other from a table of far pointers.
; Assembled by: nasm -f obj MAIN.ASM -o MAIN.OBJ

group dgroup _DATA _BSS

extern  clear_counters                  ; near, in this segment
extern  count_letters, print_bars       ; far, each in a segment of its own

segment _TEXT public align=16 class=CODE

..start:
        mov     ax, dgroup
        mov     ds, ax
        call    clear_counters
        mov     si, steps
next_step:
        push    si
        call    far [si]
        pop     si
        add     si, 4
        cmp     si, steps_end
        jb      next_step
        mov     ax, 4C00h
        int     21h

segment _DATA public align=2 class=DATA

steps:  dw      count_letters, seg count_letters
        dw      print_bars, seg print_bars
steps_end:

segment _BSS public align=2 class=BSS
