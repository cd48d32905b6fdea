"""What the measured programs and their peers answer. Each is asked before it is timed. One that answers something else
than what is measured ends the script with status 1, and a line on standard error that says which and what.
"""
import pathlib
import re
import struct
import subprocess
import sys

HEADER = struct.pack("<I", 0xA1B2C3D4)
SHOWN = 160


def fault(program, what):
    sys.exit(f"fault: {pathlib.Path(program).name}: {what}")


def shown(text):
    """The beginning of an answer, or of each side's first line that differs."""
    return repr(text if len(text) <= SHOWN else text[:SHOWN] + "..")


def asked(command, script="/dev/null", status=0, text=True, env=None):
    """A command's standard output and standard error over this input; it ends with this status."""
    words = [str(word) for word in command]
    try:
        with open(script, "rb") as lines:
            done = subprocess.run(words, stdin=lines, capture_output=True, env=env)
    except OSError as error:
        fault(words[0], error)
    said = done.stderr.decode(errors="replace")
    if done.returncode != status:
        fault(words[0], f"status {done.returncode}, where {status} is wanted; it says {shown(said)}")
    return done.stdout.decode(errors="replace") if text else done.stdout, said


def holds(program, is_so, wanted, answer):
    if not is_so:
        fault(program, f"{wanted} is wanted; it answers {shown(answer)}")


def same(program, wanted, answer):
    """Whether an answer is the wanted one, line by line."""
    for number, (left, right) in enumerate(zip(wanted.splitlines(), answer.splitlines()), 1):
        if left != right:
            fault(program, f"line {number} is {shown(right)}, where {shown(left)} is wanted")
    ours, theirs = len(wanted.splitlines()), len(answer.splitlines())
    if ours != theirs:
        fault(program, f"{theirs} lines, where {ours} are wanted; it answers {shown(answer)}")


def lines_of(program, answer, beginning, count):
    """The lines of an answer that begin so: as many as are measured."""
    lines = [line for line in answer.splitlines() if line.startswith(beginning)]
    if len(lines) != count:
        fault(program, f"{len(lines)} lines begin with {beginning!r}, where {count} are wanted; it answers {shown(answer)}")
    return lines


def debugged(cbpf, script, *wanted, env=None):
    """The replies to a script; each of the wanted beginnings, with its number, counts lines."""
    answer, _ = asked([cbpf], script, env=env)
    for beginning, count in wanted:
        lines_of(cbpf, answer, beginning, count)
    lines_of(cbpf, answer, "error:", 0)
    return answer


def counts(cbpf, script, packets, env=None):
    """How many packets pass the last run of a script, which counts all."""
    answer, _ = asked([cbpf], script, env=env)
    found = re.fullmatch(r"bpf passes:(\d+) fails:(\d+)", (answer.splitlines() or [""])[-1])
    is_so = found and int(found[1]) + int(found[2]) == packets
    holds(cbpf, is_so, f"a run over {packets} packets", answer)
    return int(found[1])


def read_by_tcpdump(file, words, passes, record):
    """Has tcpdump count the packets that pass, and write them, as records of so many bytes."""
    answer, said = asked(["tcpdump", "--count", "-q", "-r", file, words])
    wanted = f"{passes} packet" + ("" if passes == 1 else "s")
    holds("tcpdump", answer == wanted + "\n", f"{wanted!r} by --count", answer or said)
    written, size = b"", 0
    with subprocess.Popen(
        ["tcpdump", "-q", "-r", file, "-w", "-", words], stdin=subprocess.DEVNULL, stdout=subprocess.PIPE, stderr=subprocess.PIPE
    ) as tcpdump:
        while piece := tcpdump.stdout.read(1 << 20):
            written, size = written or piece[:4], size + len(piece)
        said = tcpdump.stderr.read().decode(errors="replace")
    bytes_wanted = 24 + passes * record
    is_so = tcpdump.returncode == 0 and size == bytes_wanted and written == HEADER
    holds("tcpdump", is_so, f"a capture of {bytes_wanted} bytes by -w", f"{size} bytes, status {tcpdump.returncode}: {said}")


def filtered(program, command, passes, packets):
    """Has the program that runs libpcap's bpf_filter count the packets, and those that pass."""
    answer, _ = asked(command)
    same(program, f"packets:{packets} passes:{passes}\n", answer)
