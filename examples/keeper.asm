; Seals its inputs, or opens a blob. The first byte of the inputs is the number of the service, 3 to
; seal and 4 to unseal, and the rest is what it is given. The output is what the service gives, or
; the number of its refusal.
        movzx eax, byte [esi]   ; the service
        lea ebx, [esi+1]        ; where the rest lies
        dec ecx                 ; how many bytes it has
        mov edx, 0xffffffff     ; no counter
        int 0x80                ; what is given comes to edi, and its length to ecx
        test eax, eax
        jz over
        mov [edi], eax          ; a refusal: its number
        mov ecx, 4
over:   mov ebx, ecx            ; how many bytes of output there are
        xor eax, eax            ; the service that ends the session
        int 0x80
