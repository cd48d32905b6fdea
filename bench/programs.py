"""The programs that are timed, as words. Those of tcpdump are what `tcpdump -ddd` makes of the expressions."""

# `ip proto 17` and `port 22`
SIX = "6,40 0 0 12,21 0 3 2048,48 0 0 23,21 0 1 17,6 0 0 262144,6 0 0 0"
PORT = (
    "24,40 0 0 12,21 0 8 34525,48 0 0 20,21 2 0 132,21 1 0 6,21 0 17 17,40 0 0 54,21 14 0 22,"
    "40 0 0 56,21 12 13 22,21 0 12 2048,48 0 0 23,21 2 0 132,21 1 0 6,21 0 8 17,40 0 0 20,"
    "69 6 0 8191,177 0 0 14,72 0 0 14,21 2 0 22,72 0 0 16,21 0 1 22,6 0 0 65535,6 0 0 0"
)
# `ip[0] & 0xf != 5`: 6 of its instructions run over a frame, all but the accepting return
HEADER = "7,40 0 0 12,21 0 4 2048,48 0 0 14,84 0 0 15,21 1 0 5,6 0 0 65535,6 0 0 0"
# `tcp[tcpflags] & (tcp-syn|tcp-fin) != 0`, with -O: 35 run over a frame
FLAGS = (
    "44,40 0 0 12,21 0 41 2048,40 0 0 12,21 0 2 2048,48 0 0 23,21 8 0 6,40 0 0 12,21 0 35 34525,"
    "48 0 0 20,21 4 0 6,48 0 0 20,21 0 31 44,48 0 0 54,21 0 29 6,40 0 0 20,69 27 0 8191,"
    "0 0 0 13,2 0 0 0,177 0 0 14,96 0 0 0,12 0 0 0,7 0 0 0,80 0 0 14,2 0 0 1,0 0 0 2,2 0 0 2,"
    "0 0 0 1,2 0 0 3,97 0 0 3,96 0 0 2,76 0 0 0,2 0 0 3,97 0 0 3,96 0 0 1,92 0 0 0,2 0 0 3,"
    "0 0 0 0,2 0 0 4,97 0 0 4,96 0 0 3,28 0 0 0,21 1 0 0,6 0 0 65535,6 0 0 0"
)
# `jeq #7` after `ld mark`, and after `ld #7`
MARK = "4,32 0 0 4294963220,21 0 1 7,6 0 0 65535,6 0 0 0"
SEVEN = "4,0 0 0 7,21 0 1 7,6 0 0 65535,6 0 0 0"
LONG = "4096," + "7 0 0 0," * 4095 + "6 0 0 1"


def words(instructions):
    return ",".join([str(len(instructions)), *instructions])


def arithmetic_instructions(count):
    """So many instructions: two loads, arithmetic of all kinds but division, and scratch memory."""
    numbers = {4: 12345, 20: 77, 36: 2654435761, 68: 0x10101, 84: 0xFFFFFFFE, 164: 0x5BD1E995, 100: 3, 116: 1}
    found = ["32 0 0 26", "7 0 0 0", "32 0 0 30"]
    for turn, code in enumerate([4, 12, 20, 28, 36, 44, 68, 76, 84, 92, 164, 172, 100, 116] * 10):
        found.append(f"{code} 0 0 {numbers.get(code, 0)}")
        if turn % 9 in (0, 4):
            found.append(f"{97 if turn % 9 else 2} 0 0 {turn // 9}")
    return found[: count - 2] + ["68 0 0 1", "22 0 0 0"]


ARITHMETIC = arithmetic_instructions(62)
# the longest program, straight on
STEPS = ["4 0 0 {}", "12 0 0 0", "2 0 0 3", "7 0 0 0"]
STRAIGHT = ["7 0 0 0", *(STEPS[i % 4].format(i) for i in range(4094)), "6 0 0 1"]
