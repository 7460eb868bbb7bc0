; Adds up the bytes of its inputs, modulo 2^32, and puts out the sum in four bytes, the lowest first.
;
; Where it begins, esi points at the inputs, ecx is their number, edi points at the outputs, and edx is 0.
; An input byte takes seven turns, and the rest six. examples/session.flk runs it.

again:  test ecx, ecx           ; how many bytes are left
        je done
        movzx eax, byte [esi]
        add edx, eax            ; the sum so far
        inc esi
        dec ecx
        jmp again

done:   mov [edi], edx
        mov ebx, 4              ; so many bytes are put out
        xor eax, eax            ; service 0 of the gate ends the session
        int 0x80
