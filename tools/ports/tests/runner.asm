; Runs programs in DOSBox, one after the other, as a file C:\JOB of in_dos.py's says, and stays until one names none.
; Unlike COMMAND.COM it gives a program's standard error a file too: what is written there is in C:\ERR, what goes to
; standard output in the file that the job names, and C:\IN is what is read. C:\DONE has the status, and the way that
; the program ended (0 for its own), or the error of the call that begins it and 0FFH.
        cpu 386
        org 100h
start:  mov     sp, stack
        mov     bx, (stack - start + 100h + 15) / 16
        mov     ah, 4Ah                 ; what is behind this is for others
        int     21h
        push    cs
        pop     word [block.segment_of_tail]
        call    close_streams

next:   mov     ax, 3D00h
        mov     dx, name_of_job
        int     21h
        jc      next
        mov     bx, ax
        mov     ah, 3Fh
        mov     cx, stack - job
        mov     dx, job
        int     21h
        mov     ah, 3Eh
        int     21h
        mov     ah, 41h
        mov     dx, name_of_job
        int     21h
        cmp     byte [job.program], 0
        je      ended

; what DOSBox knows of folders may be older than what is there
        mov     dx, rescan
        mov     word [block.tail], tail_of_rescan
        mov     word [block.environment], 0
        call    run

        mov     dl, [job.folder]
        sub     dl, 'A'
        mov     ah, 0Eh
        int     21h
        mov     dx, job.folder
        mov     ah, 3Bh
        int     21h
        mov     ax, 3D00h               ; a file takes the first number that is free: 0
        mov     dx, input
        int     21h
        mov     dx, job.output
        cmp     byte [job.output], 0    ; there is to be none
        je      .errors
        mov     ah, 3Ch
        xor     cx, cx
        int     21h
.errors: mov    ah, 3Ch
        xor     cx, cx
        mov     dx, errors
        int     21h
        cmp     ax, 2
        je      .given
        mov     bx, ax
        mov     cx, 2
        mov     ah, 46h
        int     21h
        mov     ah, 3Eh
        int     21h
.given: mov     ax, job.environment
        shr     ax, 4
        mov     bx, cs
        add     ax, bx
        mov     [block.environment], ax
        mov     word [block.tail], job.tail
        mov     dx, job.program
        call    run
        mov     [status], ax
        call    close_streams
        mov     ah, 3Ch
        xor     cx, cx
        mov     dx, done
        int     21h
        mov     bx, ax
        mov     ah, 40h
        mov     cx, 2
        mov     dx, status
        int     21h
        mov     ah, 3Eh
        int     21h
        jmp     next

ended:  mov     ax, 4C00h
        int     21h

; runs the program at DX by the block: answers in AX how it ended
run:    mov     ax, 4B00h
        mov     bx, block
        push    cs
        pop     es
        int     21h
        mov     bx, cs
        mov     ds, bx
        mov     es, bx
        mov     ah, 0FFh
        jc      .begun
        mov     ah, 4Dh
        int     21h
.begun: ret

close_streams: mov bx, 2
.each:  mov     ah, 3Eh
        int     21h
        dec     bx
        jns     .each
        ret

name_of_job: db "C:\JOB", 0
input:  db      "C:\IN", 0
errors: db      "C:\ERR", 0
done:   db      "C:\DONE", 0
rescan: db      "Z:\RESCAN.COM", 0
tail_of_rescan: db 3, " C:", 13
block:
.environment: dw 0
.tail:  dw      0
.segment_of_tail: dw 0
        dw      5Ch, 0, 6Ch, 0          ; two blocks of files, which nothing here reads
status: dw      0
        align   16
        absolute $
job:                                    ; as in_dos.py writes it
.folder: resb   80h
.program: resb  80h
.output: resb   80h
.tail:  resb    80h
.environment: resb 2000h
        resb    400h
stack:
