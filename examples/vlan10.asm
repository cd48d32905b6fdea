; Packets of IPv4 in VLAN 10. The kernel may have taken the tag off, or it stands among the packet's bytes.
        ld vlan_avail
        jeq #0, bytes
        ld vlan_tci
        jmp tag
bytes:  ldh [12]
        jeq #0x8100, inside
        jeq #0x88a8, inside
        jne #0x9100, drop
inside: ldx #4          ; the tag moves all bytes after it by 4
        ldh [14]
tag:    and #0xfff
        jne #10, drop
        ldh [x + 12]    ; the type after the tag
        jne #0x800, drop
        ret #-1
drop:   ret #0
