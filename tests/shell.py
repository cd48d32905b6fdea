#!/usr/bin/env python3
"""Types into tools/cbpf-shell at a pseudo-terminal, over a built program.

usage: shell.py PROGRAM

Each session is typed twice: with no rlwrap on the PATH, and under rlwrap, which is not run where that is missing. A
recorder between the shell and the program keeps the lines that the shell sends, and each has to be a plain command of
`cbpf dbg`. Where a run has to take its time, a stand-in that answers slowly is in the program's place.
The last line is `N passed, M failed`.
"""

import fcntl
import os
import pty
import re
import select
import shutil
import signal
import struct
import subprocess
import sys
import tempfile
import termios
import time
from pathlib import Path

TOP = Path(__file__).resolve().parent.parent
SHELL = TOP / "tools/cbpf-shell"
EXAMPLES = TOP / "examples"
NEEDED = "sh awk cat dd grep head id mkdir mkfifo mktemp od readlink rm sleep stty tee tr wc"
SECONDS = 30
PROMPT = "cbpf> "
ESCAPES = re.compile(r"\x1b\[[0-9;?]*[A-Za-z]|\x1b[=>]|[\x00\x07\x0f]")
SHELLS = [["dash"], ["bash", "--posix"], ["busybox", "sh"]]
RECORDER = """#!/bin/sh
case $1 in asm) exec "$REAL" "$@" ;; esac
tee "$SENT" | "$REAL" "$@"
"""
# Each `run` takes a tenth of a second and has more packets ahead, and a trace takes a minute.
SLOW = """#!/bin/sh
case $1 in why) exec sleep 60 ;; esac
runs=0
while read -r line; do
    case $line in
        run*) runs=$((runs + 1)); sleep 0.1; echo "bpf passes:0 fails:$runs next:$((runs + 1))" ;;
        .) echo "error: Q1 unknown command" ;;
        load) echo "error: Q2 wrong arguments" ;;
        load*) echo "pcap: 2 packets" ;;
        *) echo "1 0" ;;
    esac
done
"""


class Missing(Exception):
    """What was waited for didn't come."""


class Terminal:
    """A command at a pseudo-terminal of its own."""

    def __init__(self, words, folder, environment, rlwrap, columns):
        self.rlwrap = rlwrap
        self.child, self.end = pty.fork()
        if self.child == 0:
            # A shell makes a background job ignore these, and so all that it starts.
            signal.signal(signal.SIGINT, signal.SIG_DFL)
            signal.signal(signal.SIGQUIT, signal.SIG_DFL)
            os.chdir(folder)
            fcntl.ioctl(0, termios.TIOCSWINSZ, struct.pack("HHHH", 24, columns, 0, 0))
            os.execve(words[0], words, environment)
        self.pending = ""

    def read(self, stop):
        """What came up to `stop`, which is a pattern, or to the end."""
        limit = time.monotonic() + SECONDS
        while not (match := re.search(stop, self.pending) if stop else None):
            if not select.select([self.end], [], [], max(0, limit - time.monotonic()))[0]:
                raise Missing(f"no {stop!r} within {SECONDS} seconds after {self.pending!r}")
            try:
                piece = os.read(self.end, 65536).decode(errors="replace")
            except OSError:
                piece = ""
            if not piece and stop:
                raise Missing(f"the end before {stop!r}, after {self.pending!r}")
            if not piece:
                break
            self.pending = ESCAPES.sub("", self.pending + piece)
        end = match.end() if match else len(self.pending)
        found, self.pending = self.pending[:end], self.pending[end:]
        return found.replace("\r", "")

    def reply(self):
        """What came before the prompt, which rlwrap writes anew whenever it likes."""
        return self.read(re.escape(PROMPT) + "$").removesuffix(PROMPT)

    def type(self, text):
        os.write(self.end, text.encode())

    def status(self):
        """What came to the end, and the status of the command."""
        rest = self.read(None)
        return rest, os.waitstatus_to_exitcode(os.waitpid(self.child, 0)[1])


class Place:
    """A folder to run in, with a recorder, with or without rlwrap."""

    def __init__(self, program, folder, rlwrap):
        self.folder, self.rlwrap = folder, rlwrap
        shutil.copytree(EXAMPLES, folder, dirs_exist_ok=True)
        tools = folder / "tools"
        tools.mkdir()
        (folder / "temporary").mkdir()
        for name in NEEDED.split() + (["rlwrap"] if rlwrap else []):
            if at := shutil.which(name):
                (tools / name).symlink_to(at)
        for name, text in (("recorder", RECORDER), ("slow", SLOW)):
            (folder / name).write_text(text)
            (folder / name).chmod(0o755)
        self.sent = folder / "sent"
        self.environment = {
            "PATH": str(tools),
            "HOME": str(folder),
            "TMPDIR": str(folder / "temporary"),
            "TERM": "xterm",
            "LC_ALL": "C",
            "CBPF": str(folder / "recorder"),
            "REAL": program,
            "SENT": str(self.sent),
        }

    def terminal(self, *words, columns=80, **more):
        return Terminal([str(SHELL), *words], self.folder, {**self.environment, **more}, self.rlwrap, columns)

    def piped(self, text, *words, shell=(), **more):
        environment = {**self.environment, **more}
        whole = [*shell, SHELL, *words]
        return subprocess.run(whole, input=text, capture_output=True, cwd=self.folder, env=environment)

    def commands(self):
        """The lines that were sent, each of which two more follow that mark its reply's end."""
        lines = self.sent.read_text().split("\n")[:-1]
        check("the marks", {*zip(lines[1::3], lines[2::3])} - {(".", "load")}, set())
        return lines[::3]


faults = []
passed = 0


def check(what, got, wanted):
    global passed
    if got == wanted:
        passed += 1
    else:
        faults.append(f"{what}: wanted {wanted!r}, got {got!r}")


def say(terminal, line, *wanted):
    """Types a line, and waits for the wanted lines, each after the one before."""
    terminal.type(line + "\n")
    awaited(terminal, line, *wanted)


def awaited(terminal, what, *wanted):
    global passed
    try:
        for text in wanted:
            terminal.read(re.escape(text).replace("\\\t", r"\s+"))
            passed += 1
        if not terminal.rlwrap:
            terminal.reply()
    except Missing as fault:
        faults.append(f"{what}: {fault}")


def typed(terminal, line):
    terminal.type(line + "\n")
    return terminal.reply()


def shells():
    """The shells that are there, by which sh may be one."""
    return [[shutil.which(shell), *options] for shell, *options in SHELLS if shutil.which(shell)]


NO_RLWRAP = "cbpf-shell: there is no history and no completion, as rlwrap is not installed"
ARP = "4,40 0 0 12,21 0 1 2054,6 0 0 4294967295,6 0 0 0,"


def check_session(place):
    """Short forms, labels, hexadecimal numbers, repeats, and what is sent for them."""
    one = place.terminal("mixed.pcap", "arp.asm")
    awaited(one, "the loads", *([] if place.rlwrap else [NO_RLWRAP]), "bpf: 4 instructions", "pcap: 35 packets")
    say(one, "b l2", "breakpoint at: l2:\tret #0xffffffff")
    say(one, "b l1 a 0x806", "breakpoint at: l1:\tjeq #0x806, l2, l3 when a = 2054")
    say(one, "b", "breakpoints: 2 1(a=2054)")
    say(one, "d l1", "breakpoints: 2")
    say(one, "l", "l0:\tldh [12]", "l3:\tret #0")
    say(one, "r", "-- packet 1, step 3 --", "(breakpoint)")
    say(one, "bs", "-- packet 1, step 2 --", "(step)")
    say(one, "bs 1", "-- packet 1, step 1 --", "(step)")
    say(one, "s", "-- packet 1, step 2 --", "(step)")
    say(one, "", "-- packet 1, step 3 --", "(step)")
    say(one, "", "-- packet 2, step 1 --", "(step)")
    say(one, "value mark 0x10", "value mark 16")
    say(one, "")
    say(one, "b 0xzz", "error: Q2 wrong arguments", "usage: breakpoint N [a V | x V]", "`help` lists")
    say(one, "b 2 a 0x100000000", "error: Q2 wrong arguments")
    say(one, "* $(halt)", "error: Q1 unknown command", "`help` lists")
    say(one, "load pcap  no  such", "error: F1 no such file")
    say(one, ".", "error: Q1 unknown command")
    say(one, "load", "error: Q2 wrong arguments")
    # A key of rlwrap's.
    say(one, "" if place.rlwrap else "\v")
    say(one, "select 2", "at 2 0")
    say(one, "run 2", "bpf passes:0 fails:2 next:4")
    say(one, "r", "bpf passes:0 fails:34")
    say(one, "")
    one.type("q\n")
    check("the status of quit", one.status()[1], 0)
    wanted = """load pcap mixed.pcap
breakpoint 2
breakpoint 1 a 2054
breakpoint
delete 1
disassemble
run 100000
step -1
step -1
step
step
step
value mark 16
breakpoint 0xzz
breakpoint 2 a 0x100000000
* $(halt)
load pcap  no  such
.
load
\v
select 2
run 2
run 100000
quit"""
    wanted = [line for line in wanted.split("\n") if line != "\v" or not place.rlwrap]
    check("what is sent", place.commands(), ["load bpf " + ARP, *wanted])


def check_interrupts(place):
    """Ctrl-C drops a line, and breaks off a run; the session is kept."""
    one = place.terminal("two-packets.pcap", "arp.asm")
    awaited(one, "the loads", "bpf: 4 instructions", "pcap: 2 packets")
    one.type("hal")
    one.read("hal")
    interrupt = [] if place.rlwrap else ["^C"]
    for _ in range(2):
        one.type("\x03")
        awaited(one, "Ctrl-C", *interrupt)
        say(one, "mark", "1 0")
    if not place.rlwrap:
        say(one, "ma\0rk", "error: Q1 unknown command")
    one.type("\x04")
    check("the status of Ctrl-D", one.status()[1], 0)
    sent = ["mark", "mark", *([] if place.rlwrap else ["ma\1rk"])]
    check("what is sent", place.commands(), ["load bpf " + ARP, "load pcap two-packets.pcap", *sent])
    slow = place.terminal(CBPF=str(place.folder / "slow"))
    awaited(slow, "the prompt", *([PROMPT] if place.rlwrap else []))
    slow.type("run\n")
    slow.read("run")
    time.sleep(1)
    slow.type("\x03")
    awaited(slow, "a run that is broken off", "bpf passes:0 fails:")
    say(slow, "mark", "1 0")
    say(slow, "load pcap mixed.pcap", "pcap: 2 packets")
    slow.type("why\n")
    slow.read("why")
    time.sleep(0.5)
    slow.type("\x03")
    say(slow, "mark", "1 0")
    slow.type("run\n")
    slow.read("run")
    time.sleep(0.5)
    slow.type("\x1c")
    check("the status of Ctrl-\\", slow.status()[1] in (131, -signal.SIGQUIT), True)


STOP = """-- packet 1, step 3 --
-- register dump --
pc:       [2]
code:     [6] jt[0] jf[0] k[4294967295]
curr:     l2:	ret #0xffffffff
A:        [00000806][2054]
X:        [00000000][0]
M[0,15]:  [00000000][0]
"""
BYTES = """-- packet dump --
len: 42 wire: 42
    0: ff ff ff ff ff ff 00 11 22 33 44 55 08 06 00 00
   16: 00 00 00 00 00 00 00 00 00 00 00 00 00 00 00 00
   32: 00 00 00 00 00 00 00 00 00 00
"""
TRACE = """packet 1
l0:	ldh [12]          	A 0 (0x0) X 0 (0x0)
l1:	jeq #0x806, l2, l3	A 2054 (0x806) X 0 (0x0)	to l2
l2:	ret #0xffffffff   	A 2054 (0x806) X 0 (0x0)
pass at l1:	jeq #0x806, l2, l3, true with A 2054 (0x806) X 0 (0x0), then l2:	ret #0xffffffff
"""
MARK = """packet 3
l0:	ld mark 	A 0 (0x0) X 0 (0x0)
l1:	ret #0x1	A 9 (0x9) X 0 (0x0)
pass at l1:	ret #0x1
"""
HINT = "error: Q2 wrong arguments\nusage: %s\n`help` lists the commands.\n"
VIEWS = (
    ("where", "error: S1 no program\n"),
    ("why", "error: S1 no program\n"),
    ("load bpf " + ARP, "bpf: 4 instructions\n"),
    ("bytes", "error: S2 no capture\n"),
    ("load pcap  mixed.pcap ", "pcap: 35 packets\n"),
    ("where", "at 1 0\n"),
    ("bytes", BYTES),
    ("b 2", "breakpoint at: l2:\tret #0xffffffff\n"),
    ("c", STOP + "(breakpoint)\n"),
    ("bytes", BYTES),
    ("bytes on", ""),
    ("where", STOP + BYTES + "(breakpoint)\n"),
    ("bytes off", ""),
    ("why", TRACE),
    ("run 2", "bpf passes:1 fails:1 next:3\n"),
    ("where", STOP + "(breakpoint)\nat 3 0\n"),
    ("why l1", TRACE),
    ("continue", "bpf passes:1 fails:34\n"),
    ("why all", HINT % "why [N]                   shows the trace of this packet, or of packet N"),
    ("where 1", HINT % "where                     shows the last stop again"),
    ("load bpf 2,32 0 0 4294963220,6 0 0 1", "bpf: 2 instructions\n"),
    ("value mark 7", "value mark 7\n"),
    ("value mark 9", "value mark 9\n"),
    ("why 3", MARK),
    ("where", "at 1 0\n"),
)


def check_views(place):
    """A stop without bytes, the last stop again, bytes, and traces, by each shell."""
    lines, wanted = ("".join(texts) for texts in zip(*((line + "\n", reply) for line, reply in VIEWS)))
    for shell in shells():
        done = place.piped(lines.encode(), shell=shell, CBPF=place.environment["REAL"])
        check(f"the views by {shell}", (done.stdout.decode(), done.stderr, done.returncode), (wanted, b"", 0))


def check_orders(place):
    """The capture and the filter in either order, and a pipe, which is read once."""
    loads = "bpf: 4 instructions\npcap: %d packets\n"
    header = struct.pack("<HHiIII", 2, 4, 0, 0, 65535, 1), struct.pack(">HHiIII", 2, 4, 0, 0, 65535, 1)
    for magic in (0xA1B2C3D4, 0xA1B23C4D):
        (place.folder / f"-little {magic}").write_bytes(struct.pack("<I", magic) + header[0])
        (place.folder / f"-big {magic}").write_bytes(struct.pack(">I", magic) + header[1])
    for name, count in (("mixed.pcap", 35), *((path.name, 0) for path in place.folder.glob("-*"))):
        for words in (("arp.asm", name), (name, "arp.asm")):
            for shell in shells():
                done = place.piped(b"", *words, shell=shell)
                check(f"{words} by {shell}", (done.stdout.decode(), done.stderr), (loads % count, b""))
    again = b"cbpf-shell: /dev/fd/3 is no file, so it can't be read again\n"
    lines = b"bytes\nb 2\nr\nbytes\nwhy\n"
    wanted = again + b"breakpoint at: l2:\tret #0xffffffff\n" + (STOP + "(breakpoint)\n" + BYTES).encode() + again
    for words, lines, wanted in (
        ("mixed.pcap /dev/fd/3 arp.asm", lines, wanted),
        ("arp.asm /dev/fd/3 mixed.pcap", b"mark\n", b"1 0\n"),
        ("arp.asm mixed.pcap /dev/fd/3", b"mark\n", b"1 0\n"),
    ):
        piped, *names = words.split()
        whole = ["sh", "-c", f"exec 4<&0; cat {piped} | '{SHELL}' {' '.join(names)} 3<&0 <&4"]
        ends = {"input": lines, "capture_output": True, "timeout": SECONDS}
        done = subprocess.run(whole, cwd=place.folder, env={**place.environment, "CBPF": place.environment["REAL"]}, **ends)
        check(f"{words}, the first by a pipe", (done.stdout, done.stderr), ((loads % 35).encode() + wanted, b""))


def many_packets(path, count):
    header = struct.pack("<IHHiIII", 0xA1B2C3D4, 2, 4, 0, 0, 65535, 1)
    packets = [struct.pack("<IIII", 0, 0, 14, 14) + bytes(12) + kind for kind in (b"\x08\x06", b"\x08\x00")]
    path.write_bytes(header + b"".join(packets) * (count // 2))


def check_long_runs(place):
    """A run by pieces counts as the debugger's own."""
    for count in (99_998, 100_000, 200_000, 250_002):
        many_packets(place.folder / "many.pcap", count)
        one = place.terminal("many.pcap", "arp.asm")
        one.reply()
        counts = re.findall("bpf passes.*", typed(one, "run"))
        check(f"a run over {count} packets", counts, [f"bpf passes:{count // 2} fails:{count // 2}"])
        say(one, "b 2")
        say(one, f"select {count - 3}", "at ")
        say(one, "run", f"-- packet {count - 3}, step 3 --")
        say(one, "", f"-- packet {count - 1}, step 3 --")
        say(one, "", "bpf passes:2 fails:2")
        check("Enter after the end", typed(one, "").strip(), "")
        one.type("\x04")
        one.status()


def check_filters(place):
    """Sources, words, and lines of tcpdump; and what is refused."""
    words = "4,40 0 0 12,21 0 1 2054,6 0 0 4294967295,6 0 0 0"
    for name, text in {
        "words": words,
        "words of lines": words.replace(",", "\n") + "\n",
        "words over lines": "\n\t" + words.replace(",", ",\n") + ",\n",
    }.items():
        (place.folder / name).write_text(text)
        one = place.terminal("mixed.pcap", name)
        awaited(one, name, "bpf: 4 instructions", "pcap: 35 packets")
        one.type("q\n")
        one.status()
    for name, text, said in (
        ("jump", "1,21 0 9 1", "error: C7 at 0: jump outside"),
        ("words with a NUL", "1,6 0 0 \0007", "error: N3 at byte 8: unexpected byte"),
    ):
        (place.folder / name).write_text(text)
        one = place.terminal("mixed.pcap", name)
        awaited(one, name, said, "pcap: 35 packets")
        one.type("q\n")
        one.status()
    (place.folder / "wrong").write_text("ldh [12\n")
    (place.folder / "source with a NUL").write_text("ret\0 #7\n")
    (place.folder / "long").write_text("\n" * 10_000_001)
    refused = {}
    for name in ("wrong", "source with a NUL"):
        asm = [place.environment["REAL"], "asm", name]
        said = subprocess.run(asm, cwd=place.folder, capture_output=True).stderr.decode().replace("\0", "")
        refused["mixed.pcap", name] = f"{name}: {said.removesuffix(chr(10))}"
    for wrong, said in {
        **refused,
        ("mixed.pcap", "long"): "cbpf-shell: long has more than 10000000 bytes",
        ("mixed.pcap", "absent"): "cbpf-shell: cannot read absent: No such file or directory",
        ("mixed.pcap", "."): "cbpf-shell: cannot read .: Is a directory",
        ("a\nb",): "cbpf-shell: a capture's name can't have a newline here",
    }.items():
        rest, status = place.terminal(*wrong).status()
        check(f"{wrong}", rest.removeprefix(NO_RLWRAP + "\n"), said + "\n")
        check(f"the status of {wrong}", status, 1)
    rest, status = place.terminal("a", "b", "c").status()
    check("three names", (rest, status), ("usage: cbpf-shell [CAPTURE [FILTER]]\n", 2))
    rest, status = place.terminal(CBPF="absent").status()
    check("no program", (rest, status), ("cbpf-shell: there is no program absent\n", 1))
    rest, status = place.terminal("--help").status()
    check("--help", (rest.splitlines()[0], status), ("usage: cbpf-shell [CAPTURE [FILTER]]", 0))


def check_help(place):
    """The list of `help` has each command of `cbpf dbg --help`."""
    text = subprocess.run([place.environment["REAL"], "dbg", "--help"], capture_output=True, text=True).stdout
    listed = re.search(r"^Commands.*?\n(.*?)\n\n", text, re.M | re.S)[1]
    commands = set(re.findall(r"^  ([a-z]+)", listed, re.M))
    one = place.terminal()
    one.reply()
    for form in ("help", "h", "?"):
        words = set(re.findall("[a-z]+", typed(one, form)))
        check(f"{form} lacks", commands - words, set())
    one.type("q\n")
    one.status()
    check("what is sent for help", place.commands(), ["quit"])


def check_without_terminal(place):
    """From a pipe there is no prompt, and a last line needs no newline."""
    done = place.piped(b"b l2\nr", "mixed.pcap", "arp.asm")
    *lines, last = done.stdout.decode().splitlines()
    wanted = ["bpf: 4 instructions", "pcap: 35 packets", "breakpoint at: l2:\tret #0xffffffff"]
    check("from a pipe", (lines[:3], last), (wanted, "(breakpoint)"))
    check("the status from a pipe", (done.stderr, done.returncode), (b"", 0))
    done = place.piped(b"mark\n", CBPF="/bin/false")
    check("a program that fails", (done.stdout, done.returncode), (b"", 1))
    done = place.piped(b"qu\0it\nmark\n")
    check("a NUL in a line", done.stdout, b"error: Q1 unknown command\n`help` lists the commands.\nerror: S1 no program\n")
    piped = ["sh", "-c", f"'{SHELL}' mixed.pcap arp.asm | head -n 1"]
    ends = {"input": b"dump\n" * 99, "capture_output": True, "timeout": SECONDS}
    done = subprocess.run(piped, cwd=place.folder, env=place.environment, **ends)
    check("into a pipe that is closed", done.stdout, b"bpf: 4 instructions\n")
    # The folder of the session once came from the environment.
    (place.folder / "inputrc").touch()
    place.piped(b"", CBPF_SHELL_FOLDER=str(place.folder))
    check("the files of another folder", (place.folder / "inputrc").exists(), True)


def check_signals(place):
    """A signal during the start leaves no process. What it leaves in TMPDIR is looked at after each check."""
    os.mkfifo(place.folder / "fifo")
    for turn in range(33):
        # At last the shell alone gets the signal, while it reads a filter that doesn't come.
        filter_, stop = ("arp.asm", os.killpg) if turn < 30 else ("fifo", os.kill)
        words = [*shells()[turn % len(shells())], SHELL, "mixed.pcap", filter_]
        ends = {"stdin": subprocess.PIPE, "stdout": subprocess.DEVNULL, "stderr": subprocess.DEVNULL}
        one = subprocess.Popen(words, cwd=place.folder, env=place.environment, start_new_session=True, **ends)
        time.sleep(0.02 + turn * 0.002)
        stop(one.pid, signal.SIGTERM)
        # All its processes have its standard input, which becomes a pipe that nobody reads.
        unread = select.poll()
        unread.register(one.stdin, 0)
        gone = one.wait(SECONDS) in (1, 143) and unread.poll(1000 * SECONDS) != []
        check(f"{words} is ended in turn {turn}", gone, True)
        if not gone:
            os.killpg(one.pid, signal.SIGKILL)


def check_without_rlwrap(place):
    """Where rlwrap would end at once, the session goes on without it, and says so once."""
    for columns, more, why in (
        (0, {}, "the terminal has no width"),
        (120, {"HOME": ""}, "rlwrap can't write /.cbpf-shell_history"),
        (120, {"HOME": "/dev/null"}, "rlwrap can't write /dev/null/.cbpf-shell_history"),
        (120, {"RLWRAP_HOME": "/dev/null"}, "rlwrap can't write /dev/null/cbpf-shell_history"),
    ):
        one = place.terminal("mixed.pcap", "arp.asm", columns=columns, **more)
        said = NO_RLWRAP.replace("rlwrap is not installed", why)
        check(f"the start, as {why}", one.reply(), f"{said}\nbpf: 4 instructions\npcap: 35 packets\n")
        one.type("q\n")
        check(f"the status, as {why}", one.status()[1], 0)


def check_history(place):
    """rlwrap brings a line back, also in the next session, and completes commands and names."""
    for lines in (["select 7", "mark"], []):
        one = place.terminal()
        for line in lines:
            say(one, line, "error: S")
        if not lines:
            one.type("\x10\x10\x10")
            one.read("select 7")
            say(one, "", "error: S1 no program")
            one.type("disa\t")
            one.read("disassemble")
            say(one, "", "error: S1 no program")
            one.type("load pcap two\t")
            one.read("two-packets.pcap")
            one.type("\x15")
        one.type("q\n")
        one.status()
    check("the file of the history", (place.folder / ".cbpf-shell_history").exists(), True)


def check_completion(place):
    """With perl Tab completes what can stand at a place, and offers nothing else."""
    perl = shutil.which("perl")
    if not perl:
        print("not run with completion by places: no perl")
        return
    (place.folder / "tools/perl").symlink_to(perl)
    lines = [line.split() for line in (TOP / "completion/cbpf.words").read_text().splitlines()]
    after = {command: words for command, *words in lines}
    one = place.terminal()
    one.reply()
    for before, wanted in ((" ", {*after}), ("value ", {*after["value"]}), ("load ", {"bpf", "pcap"})):
        one.type(before)
        one.read(before)
        one.type("\t\t")
        offered = one.read(rf"\n{PROMPT}{before}$").removesuffix(PROMPT + before)
        check(f"what Tab offers after {before!r}", {*offered.split()}, wanted)
        one.type("\x15")
    for typed_, completed in (
        ("bre\t", "breakpoint "),
        ("breakpoint \t", "breakpoint reset "),
        ("bytes of\t", "bytes off "),
        ("load pcap mi\t", "load pcap mixed.pcap "),
        ("load pcap two-packets.pcapn\t", "load pcap two-packets.pcapng "),
    ):
        one.type(typed_)
        one.read(re.escape(completed))
        one.type("\x15")
    one.type("q\n")
    check("the status after completions", one.status()[1], 0)


def main():
    if len(sys.argv) != 2:
        sys.exit(__doc__)
    program = str(Path(sys.argv[1]).resolve())
    for rlwrap in (False, True):
        if rlwrap and not shutil.which("rlwrap"):
            print("not run under rlwrap: no rlwrap")
            continue
        plain = [check_views, check_orders, check_filters, check_without_terminal, check_signals, check_help, check_long_runs]
        under = [check_without_rlwrap, check_history, check_completion]
        for one in [check_session, check_interrupts, *(under if rlwrap else plain)]:
            with tempfile.TemporaryDirectory() as folder:
                before = len(faults)
                try:
                    one(Place(program, Path(folder), rlwrap))
                    check(f"what {one.__name__} leaves", [*(Path(folder) / "temporary").rglob("*")], [])
                except Missing as fault:
                    faults.append(str(fault))
                faults[before:] = [("under rlwrap, " if rlwrap else "") + fault for fault in faults[before:]]
    for fault in faults:
        print(f"failed {fault}")
    print(f"{passed} passed, {len(faults)} failed")
    sys.exit(1 if faults or not passed else 0)


if __name__ == "__main__":
    main()
