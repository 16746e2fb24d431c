; The text whose letters are counted.
; Assembled by: nasm -f obj TEXT.ASM -o TEXT.OBJ

group dgroup _DATA

global  text

segment _DATA public align=1 class=DATA

text:   db      'A linker gives each segment its place, and each name its address.', 0
