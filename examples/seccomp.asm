; For seccomp on x86-64: allows `exit`, and `write` to standard output and standard error. Other writes get the error
; number 1, and all other calls kill.
        ld [4]
        jne #0xc000003e, kill
        ld [0]
        jeq #60, allow
        jne #1, kill
        ld [16]
        jgt #2, refuse
allow:  ret #0x7fff0000
refuse: ret #0x50001
kill:   ret #0
