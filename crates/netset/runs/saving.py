#!/usr/bin/env python3
"""saving.py PROGRAM: runs the built program `netset` where it writes files: over its own table, with the rights of another
file, in folders of others. Prints nothing where all is as wanted but what it left out, and else what differs, and ends with
status 1."""
import glob
import os
import resource
import shutil
import stat
import subprocess
import sys
import tempfile
from pathlib import Path

PROGRAM = os.path.basename(sys.argv[1])
WRONG = []
ROWS = b"10.0.0.0/8 ten\n"
NETS = b"10.0.0.0/9\n10.128.0.0/9\n"
MERGED = b"10.0.0.0/8\n"
NOBODY, NOGROUP, DAEMON = 65534, 65534, 1


def wanted(what, holds, seen=""):
    """Notes what differs."""
    if not holds:
        WRONG.append(f"{what}: not as wanted{': ' if seen != '' else ''}{str(seen)[:300]}")


def run(words, by=None, groups=(), before=None, **how):
    """The exit status and what is told of an error, of a run by another user and these groups, if one is given."""
    def prepare():
        if before:
            before()
        if by is not None:
            os.setgroups(groups)
            os.setgid(NOGROUP)
            os.setuid(by)

    done = subprocess.run([f"./{PROGRAM}", *words], capture_output=True, check=False, preexec_fn=prepare, **how)
    return done.returncode, done.stderr


def made(name, mode, owner=None, group=None, text=b"old"):
    """Makes a file with these rights."""
    Path(name).unlink(missing_ok=True)
    Path(name).write_bytes(text)
    if owner is not None:
        os.chown(name, owner, group)
    os.chmod(name, mode)


def rights(name):
    """The rights, the owner and the group of a file."""
    it = os.stat(name)
    return oct(stat.S_IMODE(it.st_mode)), it.st_uid, it.st_gid


def left():
    """The files that runs have left beside those that they wrote."""
    return glob.glob(".netset-*") + glob.glob("*/.netset-*")


def over_its_table():
    """`compile` never writes over its table, whatever its name is."""
    os.symlink("tab", "link")
    os.symlink(".", "here")
    os.link("tab", "hard")
    for table, out in (("tab", "./tab"), ("tab", "link"), ("link", "tab"), ("tab", "here/tab"), ("tab", "hard"), ("tab", os.path.abspath("tab"))):
        got = run(["compile", table, out])
        wanted(f"compile {table} {out}", got == (2, f"{out}: the same file as TABLE\n".encode()), got)
    with open("tab", "rb") as it:
        got = run(["compile", "-", "tab"], stdin=it)
    wanted("compile - tab <tab", got == (2, b"tab: the same file as TABLE\n"), got)
    wanted("the table", Path("tab").read_bytes() == ROWS and not left(), left())
    wanted("a folder by a link", run(["merge", "nets", "-o", "here/out"]) == (0, b"") and Path("out").read_bytes() == MERGED)
    os.remove("here")


def names():
    """Nobody takes the name that a run writes under, and a last name may have any length."""
    for number in range(100):
        Path(f"out.new{number}").touch()
    wanted("names that are taken", run(["merge", "nets", "-o", "out"]) == (0, b""))
    for length in (250, 251, 254, 255):
        name = "x" * length
        wanted(f"a name of {length} bytes", run(["merge", "nets", "-o", name]) == (0, b"") and Path(name).read_bytes() == MERGED)
        Path(name).unlink(missing_ok=True)
    for number in range(100):
        os.remove(f"out.new{number}")
    wanted("nothing left", not left(), left())


def killed():
    """A run that is killed while it writes leaves one file, whose name tells nothing, and which nobody else may read."""
    def limit():
        os.umask(0)
        resource.setrlimit(resource.RLIMIT_CORE, (0, 0))
        resource.setrlimit(resource.RLIMIT_FSIZE, (512, 512))

    made("out", 0o640)
    seen = set()
    for _ in range(2):
        status, _ = run(["split", "10.0.0.0/16", "24", "-o", "out"], before=limit)
        found = left()
        wanted("one file is left", status < 0 and len(found) == 1 and rights(found[0])[0] == oct(0o600), (status, found))
        for name in found:
            seen.add(name)
            os.remove(name)
    wanted("two names", len(seen) == 2, seen)
    wanted("the old file", Path("out").read_bytes() == b"old" and rights("out")[0] == oct(0o640))


def failing_looks():
    """Where the system does not tell whether there is a file, none is written."""
    if not shutil.which(os.environ.get("CC", "cc")):
        return
    text = "#include <errno.h>\nint statx(int a, const char *b, int c, unsigned d, void *e) { return errno = EIO, -1; }\n"
    subprocess.run([os.environ.get("CC", "cc"), "-shared", "-fPIC", "-x", "c", "-", "-o", "looks.so"], input=text.encode(), check=True)
    for words, name in ((["merge", "nets", "-o", "out"], "out"), (["merge", "nets", "-o", "none"], "none"), (["compile", "tab", "out"], "out")):
        made("out", 0o600)
        got = run(words, env={**os.environ, "LD_PRELOAD": os.path.abspath("looks.so")})
        wanted(f"{words} where `statx` fails", got == (3, f"{name}: cannot be written\n".encode()), got)
        wanted("the file then", Path("out").read_bytes() == b"old" and not os.path.exists("none") and not left(), left())


def fresh():
    """A file that was not there has the rights of the mask."""
    got = run(["merge", "nets", "-o", "fresh"], before=lambda: os.umask(0o027))
    wanted("the rights of a new file", got == (0, b"") and rights("fresh")[0] == oct(0o640), rights("fresh"))


def rights_of_others():
    """The owner and the group stay where they may; else nobody has more rights than before."""
    root = 0
    for mode, owner, group, by, groups, then in (
        (0o660, NOBODY, DAEMON, NOBODY, (), (0o600, NOBODY, NOGROUP)),
        (0o644, NOBODY, DAEMON, NOBODY, (), (0o644, NOBODY, NOGROUP)),
        (0o604, NOBODY, DAEMON, NOBODY, (), (0o600, NOBODY, NOGROUP)),
        (0o6755, NOBODY, DAEMON, NOBODY, (), (0o755, NOBODY, NOGROUP)),
        (0o660, NOBODY, DAEMON, NOBODY, (DAEMON,), (0o660, NOBODY, DAEMON)),
        (0o664, root, DAEMON, NOBODY, (DAEMON,), (0o664, NOBODY, DAEMON)),
        (0o6755, root, DAEMON, NOBODY, (DAEMON,), (0o755, NOBODY, DAEMON)),
        (0o664, root, root, NOBODY, (), (0o644, NOBODY, NOGROUP)),
        (0o6755, NOBODY, DAEMON, None, (), (0o6755, NOBODY, DAEMON)),
        (0o600, NOBODY, NOGROUP, None, (), (0o600, NOBODY, NOGROUP)),
    ):
        made("out", mode, owner, group)
        got = run(["merge", "nets", "-o", "out"], by, groups)
        then = (oct(then[0]), *then[1:])
        wanted(f"{oct(mode)} {owner}:{group} written by {by} {groups}", got == (0, b"") and rights("out") == then, (got, rights("out"), then))
    os.mkdir("closed", 0o755)
    for name in ("closed/out", "closed"):
        got = run(["merge", "nets", "-o", name], NOBODY)
        why = b": cannot be written: " + (b"permission denied\n" if "/" in name else b"is a directory\n")
        wanted(f"-o {name} of another", got == (3, name.encode() + why), got)


def links_of_others():
    """A link of another in a folder of all is followed where the system follows it."""
    os.mkdir("shared")
    os.chmod("shared", 0o1777)
    for owner, follows in ((0, True), (NOBODY, Path("/proc/sys/fs/protected_symlinks").read_text().strip() == "0")):
        made("out", 0o600)
        os.symlink(os.path.abspath("out"), "shared/led")
        os.lchown("shared/led", owner, owner)
        got = run(["merge", "nets", "-o", "shared/led"])
        then = ((0, b""), MERGED) if follows else ((3, b"shared/led: cannot be written: permission denied\n"), b"old")
        wanted(f"a link of {owner}", (got, Path("out").read_bytes()) == then, got)
        os.remove("shared/led")


def main():
    with tempfile.TemporaryDirectory() as room:
        shutil.copy(sys.argv[1], room)
        os.chdir(room)
        os.chmod(room, 0o777)
        os.umask(0o022)
        Path("tab").write_bytes(ROWS)
        Path("nets").write_bytes(NETS)
        for test in (over_its_table, names, killed, failing_looks, fresh):
            test()
        if os.geteuid() == 0:
            rights_of_others()
            links_of_others()
        else:
            print("netset: files of other users were not tried: this is not root", file=sys.stderr)
    for line in WRONG:
        print(f"{PROGRAM}: {line}", file=sys.stderr)
    return 1 if WRONG else 0


sys.exit(main())
