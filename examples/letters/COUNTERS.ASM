; A counter for each letter: memory of the group without data.
; Assembled by: nasm -f obj COUNTERS.ASM -o COUNTERS.OBJ

group dgroup _BSS

global  counters, counters_end

segment _BSS public align=2 class=BSS

counters:
        resb    26
counters_end:
