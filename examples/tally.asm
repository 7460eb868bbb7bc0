; A PAL that keeps bytes by a counter. Its inputs are a service, four bytes, and what is to be sealed or
; opened. It calls the service: 3 seals by the counter that the four bytes ask for, 4 opens, 5 creates a
; counter, 6 reads the counter of this number, 7 increments it. It puts out the blob, or what was sealed
; in it, or the counter's number and its value, or four bytes with the number of the refusal.
        movzx ebp, byte [esi]       ; the service
        mov edx, [esi+1]            ; the counter that is asked for
        lea ebx, [esi+5]            ; what is to be sealed or opened
        sub ecx, 5
        cmp ebp, 5
        jb call
        mov ebx, edx                ; services 5 to 7 take the counter's number in ebx
call:   mov eax, ebp
        int 0x80
        test eax, eax
        je good
        mov [edi], eax              ; refused: its number
        mov ecx, 4
        jmp done
good:   cmp ebp, 5
        jb done                     ; ecx bytes stand at edi
        mov [edi], ebx
        mov [edi+4], ecx
        mov ecx, 8
done:   mov ebx, ecx
        xor eax, eax
        int 0x80                    ; the session ends
