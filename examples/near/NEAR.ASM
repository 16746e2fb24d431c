; A near call and a jump to names of another module, in one segment.
; Assembled by: nasm -f obj NEAR.ASM -o NEAR.OBJ

extern  leave_program, start_text

segment _TEXT public align=1 class=CODE

global  begin

..start:
begin:
        mov     dx, start_text
        mov     al, byte [start_text]
        call    leave_program
        jmp     leave_program
