; Adds up the bytes of its inputs, modulo 2^32, and puts the sum into its first four bytes of outputs.
;
; Where it begins, esi points at the inputs, ecx is their number, and edi points at the outputs.
; It ends at gate 0x80 with 0 in eax, and with the number of bytes of outputs in ebx.

        xor eax, eax            ; the sum so far
        test ecx, ecx
        jz done                 ; without inputs it is 0

next:   movzx edx, byte [esi]
        add eax, edx
        inc esi
        dec ecx                 ; sets the zero flag at the last one
        jnz next

done:   mov [edi], eax          ; the lowest byte first
        mov ebx, 4
        xor eax, eax
        int 0x80
