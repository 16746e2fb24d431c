; Clears the counters, whose memory the program's file doesn't have and DOS doesn't clear. It is called near, from
; the module that starts; both stand in one segment.
; Assembled by: nasm -f obj CLEAR.ASM -o CLEAR.OBJ

group dgroup _BSS

extern  counters, counters_end

segment _BSS public align=2 class=BSS

segment _TEXT public align=1 class=CODE

global  clear_counters

clear_counters:
        push    ds
        pop     es
        mov     di, counters wrt dgroup
        mov     cx, counters_end wrt dgroup
        sub     cx, di
        xor     al, al
        cld
        rep     stosb
        ret
