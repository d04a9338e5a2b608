#!/usr/bin/env python3
"""streams.py PROGRAM: runs the built program `netset` where the contract can't see: how many calls write a line, two runs
that append to one file, answers before more is read, terminals, a pipe that nobody reads, and how long long access lists
take. Prints nothing where all is as wanted, and else what differs, and ends with status 1."""
import contextlib
import glob
import os
import pty
import re
import resource
import select
import socket
import subprocess
import sys
import tempfile
import threading
import time

PROGRAM = os.path.abspath(sys.argv[1])
BLOCK = 8192
WAIT = 20
WRONG = []


def wanted(what, holds, seen=""):
    """Notes what differs."""
    if not holds:
        WRONG.append(f"{what}: not as wanted{': ' if seen != '' else ''}{str(seen)[:300]}")


def start(words, **how):
    """Starts the program with these arguments, and as Python's Popen with the rest."""
    return subprocess.Popen([PROGRAM, *words], **how)


def ended(process):
    """The exit status."""
    try:
        return process.wait(WAIT)
    except subprocess.TimeoutExpired:
        process.kill()
        return None


def packets(words, stream, given=b""):
    """What each call of `write` wrote to a stream, and the exit status. A socket of packets keeps the calls apart."""
    ours, theirs = socket.socketpair(socket.AF_UNIX, socket.SOCK_SEQPACKET)
    found = []

    def read():
        while got := ours.recv(1 << 20):
            found.append(got)

    reader = threading.Thread(target=read)
    reader.start()
    others = {"stdout": subprocess.DEVNULL, "stderr": subprocess.DEVNULL, stream: theirs.fileno()}
    process = start(words, stdin=subprocess.PIPE, **others)
    theirs.close()
    with contextlib.suppress(BrokenPipeError):
        process.stdin.write(given)
        process.stdin.close()
    status = ended(process)
    reader.join()
    ours.close()
    return found, status


def one_call_a_line():
    """A line goes by one call, and many lines by calls that end where a line ends."""
    for words, given in (
        (["show", "192.0.2.7/24"], b""), (["nth", "::/0", "7"], b""), (["--help"], b""), (["--version"], b""),
        (["merge"], b"10.0.0.0/9\n10.128.0.0/9\n192.0.2.1\n"), (["count"], b"10.0.0.0/8\n::1\n"), (["ranges"], b"::1-::7\n"),
        (["free", "ten", "9", "-"], b"10.0.0.0/9\n"), (["diff", "ten", "-"], b"10.0.0.0/9\n"), (["check"], b"10.0.0.1/8\n"),
        (["match", "ten"], b"10.0.0.1 a\n"), (["match", "-c", "ten"], b"10.0.0.1 a\n"), (["look", "owners"], b"10.0.0.1\n"),
        (["split", "192.0.2.0/24", "26"], b""), (["class", "10.0.0.1"], b""), (["class", "-"], b"10.0.0.1\n"),
        (["acl", "-"], b"permit ::1\n"), (["acl", "--shadowed", "-"], b"permit ::1\ndeny ::1\n"),
        (["acl", "--diff", "nothing", "-"], b"permit ::1\n"), (["acl", "--format", "nft", "-"], b"permit ::1\n"),
        (["diff", "--format", "json", "ten", "-"], b"10.0.0.0/9\n"), (["same", "owners", "-"], b"10.0.0.0/9 ten\n"),
    ):
        found, _ = packets(words, "stdout", given)
        wanted(f"{words}: calls of `write`", len(found) == 1 and found[0].endswith(b"\n"), found)
    for words, given in ((["merge"], b"x\n"), (["merge", "missing"], b""), (["nth", "::/0", "x"], b""), (["merged"], b""),
                         (["diff", "-", "-"], b""), (["match", "ten"], b"x\n"), (["look", "owners"], b"x\n")):
        found, status = packets(words, "stderr", given)
        wanted(f"{words}: calls of `write` of an error", len(found) == 1 and status == 2, found)
    addresses = b"".join(b"10.%d.%d.%d\n" % (it >> 16, it >> 8 & 255, it & 255) for it in range(0, 20_000, 2))
    long_line = b"10.0.0.1 " + b"x" * (3 * BLOCK) + b"\n"
    most = b"10.0.0.1 " + b"x" * (BLOCK - 10) + b"\n"
    for words, given, stream in (
        (["merge"], addresses, "stdout"), (["check"], addresses + addresses, "stdout"), (["ranges"], addresses, "stdout"),
        (["diff", "nothing", "-"], addresses, "stdout"), (["diff", "nothing", "-", "--format", "json"], addresses, "stdout"), (["match", "ten"], addresses, "stdout"),
        (["same", "nothing", "-"], addresses, "stdout"), (["look", "owners"], addresses, "stdout"), (["class", "-"], addresses, "stdout"), (["split", "10.0.0.0/16", "32"], b"", "stdout"),
        (["merge", "-k"], b"x\n" * 5000, "stderr"), (["match", "ten"], b"10.0.0.1\n" + most + b"10.0.0.2\n", "stdout"),
    ):
        found, _ = packets(words, stream, given)
        whole = all(it.endswith(b"\n") and len(it) <= BLOCK for it in found)
        # (what is answered is written before more is read too)
        few = len(found) <= sum(map(len, found)) / (BLOCK - 200) + 2 or words[0] in ("match", "look", "class")
        wanted(f"{words}: blocks of whole lines", found and whole and few, [(len(it), it[-40:]) for it in found])
    found, _ = packets(["match", "ten"], "stdout", b"10.0.0.1\n" + long_line + b"10.0.0.2\n")
    wanted("a line longer than a block", b"".join(found) == b"10.0.0.1\n" + long_line + b"10.0.0.2\n", found)


def two_runs_append():
    """Two runs that append to one file at once: each line is whole."""
    with open("errors", "wb") as it:
        it.writelines(b"bad%d\n" % number for number in range(5000))
    for words, stream, lines in ((["split", "10.0.0.0/18", "32"], "stdout", 1 << 14), (["merge", "-k", "errors"], "stderr", 5000)):
        alone = subprocess.run([PROGRAM, *words], capture_output=True, check=False)
        alone = sorted(getattr(alone, stream).splitlines())
        wanted(f"{words}: lines", len(alone) == lines, len(alone))
        for turn in range(5):
            with open("log", "wb"):
                pass
            log = os.open("log", os.O_WRONLY | os.O_APPEND)
            others = {"stdout": subprocess.DEVNULL, "stderr": subprocess.DEVNULL, stream: log}
            for process in [start(words, stdin=subprocess.DEVNULL, **others) for _ in range(2)]:
                ended(process)
            os.close(log)
            with open("log", "rb") as it:
                both = sorted(it.read().splitlines())
            if both != sorted(alone + alone):
                torn = [line for line in both if line not in set(alone)]
                wanted(f"{words}: two runs that append, turn {turn}", False, f"{len(torn)} lines torn, as {torn[:3]}")
                break


def next_bytes(output, count):
    """This many bytes, or those that come in time."""
    got = b""
    end = time.monotonic() + WAIT
    while len(got) < count and select.select([output], [], [], max(0, end - time.monotonic()))[0]:
        more = os.read(output.fileno(), 1 << 16)
        if not more:
            break
        got += more
    return got


def answers_before_more_is_read():
    """What is answered is written before more is read, also where the next line has begun."""
    for words, answer in ((["match", "ten"], b"10.0.0.%d x\n"), (["match", "--any", "ten", "-"], b"10.0.0.%d x\n"),
                          (["match", "-v", "eight"], b"10.0.0.%d x\n"), (["look", "owners"], b"10.0.0.%d 10.0.0.0/8 ten\n"),
                          (["class", "-"], b"10.0.0.%d 10.0.0.0/8 Private-Use RFC1918 not-global 2025-05\n")):
        process = start(words, stdin=subprocess.PIPE, stdout=subprocess.PIPE, stderr=subprocess.DEVNULL, bufsize=0)
        begun = b""
        for turn in range(1, 4):
            line = b"10.0.0.%d x\n" % turn
            process.stdin.write(line[len(begun):] + b"10.0.0")
            begun = b"10.0.0"
            got = next_bytes(process.stdout, len(answer % turn))
            wanted(f"{words}: the answer to line {turn} before more is read", got == answer % turn, got)
        process.stdin.close()
        ended(process)
        process.stdout.close()


def on_terminal(words, given, streams):
    """What stands on a terminal to which these streams go, where the input is slow, and what goes to the others."""
    ours, theirs = pty.openpty()
    shown = []

    def read():
        with contextlib.suppress(OSError):
            while got := os.read(ours, 1 << 16):
                shown.append(got)

    reader = threading.Thread(target=read)
    reader.start()
    others = {it: theirs if it in streams else subprocess.PIPE for it in ("stdout", "stderr")}
    process = start(words, stdin=subprocess.PIPE, bufsize=0, **others)
    os.close(theirs)
    for place, part in enumerate(given):
        time.sleep(1.3 if place else 0)
        with contextlib.suppress(BrokenPipeError):
            process.stdin.write(part)
    process.stdin.close()
    status = ended(process)
    rest = b"".join(getattr(process, it).read() for it in ("stdout", "stderr") if it not in streams)
    reader.join()
    os.close(ours)
    return b"".join(shown), rest, status


def terminals():
    """How far reading is: shown where standard error alone is a terminal, and erased before anything is written."""
    progress = rb"(\d+ bytes read\r)+\x1b\[K"
    slow = [b"10.0.0.0/9\n", b"10.128.0.0/9\n"]
    shown, rest, status = on_terminal(["merge"], slow, ("stderr",))
    wanted("progress on a terminal", re.fullmatch(progress, shown) and rest == b"10.0.0.0/8\n" and status == 0, shown)
    shown, rest, status = on_terminal(["merge"], [b"10.0.0.0/9\n", b"x\n"], ("stderr",))
    wanted("an error behind progress", re.fullmatch(progress + rb"-:2: .*\r\n", shown) and status == 2, shown)
    shown, rest, status = on_terminal(["look", "owners"], [b"10.0.0.1\n", b"10.0.0.2\n", b"10.0.0.3\n"], ("stderr",))
    wanted("answers beside progress", re.fullmatch(b"(" + progress + b")+", shown) and rest.count(b" ten\n") == 3, shown)
    shown, rest, status = on_terminal(["merge"], slow, ("stdout", "stderr"))
    wanted("no progress beside answers", shown == b"10.0.0.0/8\r\n" and status == 0, shown)
    lines = [b"10.0.0.%d\n" % it for it in range(1, 4)]
    shown, rest, status = on_terminal(["look", "owners"], lines, ("stdout", "stderr"))
    wanted("answers on a terminal", shown == b"".join(b"10.0.0.%d 10.0.0.0/8 ten\r\n" % it for it in range(1, 4)), shown)
    shown, rest, status = on_terminal(["merge"], slow, ("stdout",))
    wanted("nothing on standard error", shown == b"10.0.0.0/8\r\n" and rest == b"" and status == 0, rest)


def closed_pipes():
    """A pipe that nobody reads any more: status 3, and no message."""
    for words, given in ((["split", "::/0", "128"], b""), (["--help"], b""), (["merge"], b"10.0.0.0/8\n"), (["match", "ten"], b"10.0.0.1\n"),
                         (["look", "owners"], b"10.0.0.1\nx\n"), (["merge", "-k"], b"10.0.0.0/8\n"), (["show", "::1"], b"")):
        read, write = os.pipe()
        os.close(read)
        process = start(words, stdin=subprocess.PIPE, stdout=write, stderr=subprocess.PIPE)
        os.close(write)
        _, said = process.communicate(given)
        wanted(f"{words} into a closed pipe", (process.returncode, said) == (3, b""), (process.returncode, said))
    first = subprocess.run(f"'{PROGRAM}' split 10.0.0.0/8 32 | head -1; exit ${{PIPESTATUS[0]}}", shell=True, executable="/bin/bash",
                           capture_output=True, check=False)
    wanted("split | head -1", (first.returncode, first.stdout, first.stderr) == (3, b"10.0.0.0\n", b""), first)


def killed_while_it_writes():
    """A run that is killed while it writes a file, at any time, leaves a whole file: the old one, or the new one."""
    nets = [b"%d.%d.%d.0/24" % (1 + number % 200, number >> 8 & 255, number & 255) for number in range(20_000)]
    for name, lines in ("rows", [b"%s %d\n" % it for it in zip(nets, range(20_000))]), ("nets", [b"%s\n" % it for it in nets]):
        with open(name, "wb") as it:
            it.writelines(lines)
    for new, old in ((["compile", "rows", "written"], ["compile", "owners", "written"]), (["merge", "-o", "written", "nets"], ["merge", "-o", "written", "ten"])):
        wholes = []
        began = time.monotonic()
        for words in (new, old):
            subprocess.run([PROGRAM, *words], check=False)
            with open("written", "rb") as it:
                wholes.append(it.read())
        took = time.monotonic() - began
        wanted(f"{new[0]}: two files", len(set(wholes)) == 2, [len(it) for it in wholes])
        for turn in range(60):
            process = start(new)
            time.sleep(took * turn / 50)
            process.kill()
            process.wait()
            with open("written", "rb") as it:
                got = it.read()
            wanted(f"{new[0]}, killed after {turn} of 50 parts of its time", got in wholes, len(got))
            for name in glob.glob(".netset-*"):
                os.remove(name)


def little_stack():
    """Each command with a stack of 192 KB."""
    def limit():
        resource.setrlimit(resource.RLIMIT_STACK, (192 << 10, 192 << 10))

    os.symlink("written", "link")
    for words, given in (
        (["merge", "-", "both"], b"10.0.0.0/9\n::1-::8\n"), (["minus", "both", "-"], b"10.0.0.0/9\n"), (["and", "both", "-"], b"10.0.0.0/9\n"),
        (["not", "--in", "::/0", "-"], b"::1\n"), (["ranges"], b"::1-::9\n"), (["count"], b"::/0\n"), (["diff", "ten", "-"], b"::1\n"),
        (["free", "both", "64", "-"], b"::1\n"), (["check", "-", "both"], b"10.0.0.1/8\n::1\n"), (["match", "--any", "both"], b"(10.0.0.1)\n"),
        (["match", "-v", "both"], b"10.0.0.1\n"), (["look", "owners"], b"10.0.0.1\n::1\n"), (["merge", "-k"], b"x\n"),
        (["show", "::1"], b""), (["split", "::/120", "128"], b""), (["nth", "::/0", "1"], b""), (["--help"], b""), (["merged"], b""),
        (["class", "-"], b"10.0.0.1\n::1\n"), (["acl", "-"], b"permit ::1\n"),
        (["acl", "--shadowed", "-"], b"permit ::1\ndeny ::1\n"), (["acl", "--diff", "nothing", "-"], b"permit ::1\n"),
        (["acl", "--format", "bird", "-"], b"permit ::1\n"), (["diff", "--format", "json", "ten", "-"], b"::1\n"), (["same", "owners", "-"], b"10.0.0.1 x\n::1 y\n"), (["merge", "-o", "link", "-"], b"10.0.0.0/9\n"), (["compile", "owners", "link"], b""),
    ):
        run = subprocess.run([PROGRAM, *words], input=given, capture_output=True, check=False)
        small = subprocess.run([PROGRAM, *words], input=given, capture_output=True, check=False, preexec_fn=limit)
        same = (small.returncode, small.stdout, small.stderr) == (run.returncode, run.stdout, run.stderr)
        wanted(f"{words} with a stack of 192 KB", same and small.returncode >= 0, small)


def long_access_lists():
    """120,000 addresses, none beside another, and the same from the last to the first: with the square of the number of rules it
    would take more than a minute."""
    hosts = [f"10.{i >> 16}.{i >> 8 & 255}.{i & 255}" for i in range(0, 240_000, 2)]
    count = len(hosts)
    with open("long", "w", encoding="ascii") as it:
        it.writelines(f"permit {host}\n" for host in hosts + hosts[::-1])
    shadows = "".join(f"long:{count + 1 + k}: shadowed by long:{count - k}\n" for k in range(count))
    for words, answer in ((["acl", "--shadowed", "long"], (1, shadows)), (["acl", "long"], (0, "".join(f"{host}\n" for host in hosts)))):
        try:
            ran = subprocess.run([PROGRAM, *words], capture_output=True, text=True, check=False, timeout=WAIT)
        except subprocess.TimeoutExpired:
            wanted(f"{words} in {WAIT} seconds", False)
        else:
            wanted(f"{words}", (ran.returncode, ran.stdout, ran.stderr) == (*answer, ""), ran.stdout)


def main():
    with tempfile.TemporaryDirectory() as room:
        os.chdir(room)
        for name, text in (("ten", b"10.0.0.0/8\n"), ("both", b"10.0.0.0/8\n::/0\n"), ("eight", b"8000::/1\n"), ("nothing", b""),
                           ("owners", b"10.0.0.0/8 ten\n")):
            with open(name, "wb") as it:
                it.write(text)
        for test in (one_call_a_line, two_runs_append, answers_before_more_is_read, terminals, closed_pipes, killed_while_it_writes, little_stack, long_access_lists):
            test()
    for line in WRONG:
        print(f"{os.path.basename(PROGRAM)}: {line}", file=sys.stderr)
    return 1 if WRONG else 0


sys.exit(main())
