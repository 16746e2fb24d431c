; Data and zeros in one group, addressed by one frame.
; Assembled by: nasm -f obj GROUPS.ASM -o GROUPS.OBJ

group dgroup data bss

segment code public align=1 class=CODE

..start:
        mov     ax, dgroup
        mov     ds, ax
        mov     bx, [count]
        mov     [total], bx
        mov     ax, 4C00h
        int     21h

segment data public align=2 class=DATA

count:  dw      3
where:  dw      total
far_where:
        dw      count, dgroup

segment bss public align=2 class=BSS

total:  resw    1
