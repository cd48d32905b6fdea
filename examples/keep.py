"""Copies the packets of a capture that pass a filter into a new capture.

usage: cbpf why -p FILTER OLD | python3 keep.py OLD NEW
"""

import sys

old, new = open(sys.argv[1], "rb"), open(sys.argv[2], "wb")
header = old.read(24)
new.write(header)
order = "big" if header[0] == 0xA1 else "little"
for line in sys.stdin:
    record = old.read(16)
    record += old.read(int.from_bytes(record[8:12], order))
    if line.split()[1] == "pass":
        new.write(record)
