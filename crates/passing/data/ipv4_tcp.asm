; TCP packets over IPv4 and Ethernet: the type at byte 12 is 0x800, and the protocol at byte 23 is 6.
; From the kernel's Documentation/networking/filter.
ldh [12]
jne #0x800, drop
ldb [23]
jneq #6, drop
ret #-1
drop: ret #0
