#!/bin/sh
# Makes a capture of system calls, as a filter of seccomp sees them on x86-64.
# usage: sh seccomp.sh < CALLS > CAPTURE
# A line of CALLS is the number of a call and its arguments, at most six. Its record in the capture is the struct
# seccomp_data, of 16 words in the machine's order. Each word is written with the highest byte first, as `cbpf` reads it.

words() {
    for word; do
        printf "$(printf '\\%03o\\%03o\\%03o\\%03o' \
            $((word >> 24 & 255)) $((word >> 16 & 255)) $((word >> 8 & 255)) $((word & 255)))"
    done
}

words 0xa1b2c3d4 0x00020004 0 0 64 147
while read -r number a b c d e f; do
    words 0 0 64 64 "$number" 0xc000003e 0 0
    for argument in "${a:-0}" "${b:-0}" "${c:-0}" "${d:-0}" "${e:-0}" "${f:-0}"; do
        words $((argument)) $((argument >> 32))
    done
done
