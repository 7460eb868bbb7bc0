; A job that keeps a sum. Its own inputs are a number in four bytes, the lowest first; it adds the number to a state of
; four bytes, keeps the new sum as its state, and puts it out. Inputs of fewer bytes add nothing.
        mov eax, [63488]        ; the state: the sum so far. At a birth zeros stand here, and edx is 0
        cmp ecx, 4              ; how many bytes its own inputs have
        jb keep                 ; fewer than a number has: the sum stays
        add eax, [esi]          ; esi is where its own inputs begin, after mode and blob
keep:   mov [63488], eax        ; the new state stands where the old one stood
        mov [edi], eax          ; the output, from 61,440 on
        mov ebx, 4              ; so many bytes of output
        mov edx, 4              ; so many bytes of state
        xor eax, eax            ; service 0: the code ends, and its state is sealed
        int 0x80
