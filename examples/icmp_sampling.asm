; One in four ICMP packets over IPv4 and Ethernet, drawn by random numbers.
; From the kernel's Documentation/networking/filter.
ldh [12]
jne #0x800, drop
ldb [23]
jneq #1, drop
# a random number of 32 bits
ld rand
mod #4
jneq #1, drop
ret #-1
drop: ret #0
