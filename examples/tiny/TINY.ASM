; The smallest module that says something: a public number and no segment.
; Assembled by: nasm -f obj TINY.ASM -o TINY.OBJ

global  answer

answer  equ     42
