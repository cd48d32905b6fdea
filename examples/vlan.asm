; Packets of the VLAN with id 10, where the network card took the tag off (accelerated VLAN).
; From the kernel's Documentation/networking/filter.
ld vlan_tci
jneq #10, drop
ret #-1
drop: ret #0
