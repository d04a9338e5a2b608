"""What the scripts here share: random routes, payloads and prefix lists, and the answers of this crate, as cargo builds it."""
import ipaddress
import os
import random
import shutil
import subprocess
import sys
from pathlib import Path

HERE = Path(__file__).resolve().parent
# Where Debian puts the programs.
ENVIRONMENT = {**os.environ, "PATH": os.environ["PATH"] + ":/usr/sbin:/usr/local/sbin:/usr/lib/frr"}
ROWS = 40
AS_NUMBERS = [0, 1, 2, 3, 64496, 4294967295]
# Networks are in these, so that they often contain one another.
SPACES = {4: "10.0.0.0/8", 6: "2001:db8::/32"}


def begin(programs):
    """The number of cases, after the seed is set and told; `None` where one of these programs is missing."""
    cases = int(sys.argv[1]) if len(sys.argv) > 1 else 10000
    seed = int(sys.argv[2]) if len(sys.argv) > 2 else random.randrange(1 << 32)
    for program in [*programs, "cargo"]:
        if not shutil.which(program, path=ENVIRONMENT["PATH"]):
            print(f"skipped: there is no {program} here")
            return None
    print(f"seed {seed}", flush=True)
    random.seed(seed)
    return cases


def network(version):
    """A random network inside the space of a family."""
    space = ipaddress.ip_network(SPACES[version])
    longer = random.randint(0, space.max_prefixlen - space.prefixlen)
    bits = random.getrandbits(longer + 1) >> 1 if random.random() < 0.5 else random.getrandbits(3) << max(0, longer - 3)
    bits &= (1 << longer) - 1
    length = space.prefixlen + longer
    return type(space)((int(space.network_address) + (bits << (space.max_prefixlen - length)), length))


def below(net, most):
    """A random network in one, at most so many bits longer."""
    length = min(net.max_prefixlen, net.prefixlen + random.randint(0, most))
    bits = random.getrandbits(length - net.prefixlen + 1) >> 1
    return type(net)((int(net.network_address) + (bits << (net.max_prefixlen - length)), length))


def blocks(version):
    """Some networks that a space is cut into, so that others have no payload."""
    return list(ipaddress.ip_network(SPACES[version]).subnets(prefixlen_diff=5))[::3]


def payload(version):
    net = below(random.choice(blocks(version)), 10)
    most = min(net.max_prefixlen, net.prefixlen + random.choice([0, 0, 2, 8, 16]))
    return net, most, random.choice(AS_NUMBERS)


def row(version):
    net = below(ipaddress.ip_network(SPACES[version]), 12)
    low = random.randint(net.prefixlen, min(net.max_prefixlen, net.prefixlen + 12))
    return random.choice(["permit", "deny"]), net, low, random.randint(low, min(net.max_prefixlen, low + 12))


def prefix_list(version):
    rows = [row(version) for _ in range(ROWS)]
    if random.random() < 0.5:
        whole = ipaddress.ip_network(SPACES[version])
        rows.append(("permit", whole, whole.prefixlen, whole.max_prefixlen - random.randint(0, 8)))
    return rows


def networks_of(lists, cases):
    """Random networks, each with the name of a list whose rows are about networks like it."""
    asked = []
    for _ in range(cases):
        name = random.choice(list(lists))
        net = random.choice(lists[name])[1]
        asked.append((name, below(net, 16) if random.random() < 0.9 else network(net.version)))
    return asked


def row_lines(lists):
    """Rows as the program of this crate reads them."""
    return [f"row {name} {action} {net} {low} {high}" for name, rows in lists.items() for action, net, low, high in rows]


def built(room):
    """The program of this crate."""
    made = ["--target-dir", room / "made", "--manifest-path", HERE / "answers/Cargo.toml"]
    subprocess.run(["cargo", "build", "--quiet", "--release", "--offline", *made], check=True)
    (HERE / "answers/Cargo.lock").unlink(missing_ok=True)
    return room / "made/release/answers"


def ask_crate(program, version, lines):
    told = subprocess.run([program, f"ipv{version}"], input="\n".join(lines) + "\n", capture_output=True, text=True, check=True)
    return told.stdout.split("\n")[:-1]


def compare(what, who, questions, theirs, ours):
    """Prints differences, and how many answers were equal; returns how many differ."""
    wrong = [it for it in zip(questions, theirs, ours, strict=True) if it[1] != it[2]]
    for question, their, our in wrong[:20]:
        print(f"{what}: {' '.join(map(str, question))}: {who} {their}, here {our}")
    counts = ", ".join(f"{it} {ours.count(it)}" for it in sorted(set(ours))[:4])
    print(f"{what}: {len(questions) - len(wrong)} equal, {len(wrong)} different ({counts})", flush=True)
    return len(wrong)


def compare_lists(program, version, who, lists, asked, theirs):
    """The same of what lists permit: by their rows, without the rows that are told to decide nothing, and by the rows of what
    is permitted."""
    given = row_lines(lists)
    questions = [f"permits {name} {net}" for name, net in asked]
    wrong = compare(f"lists of IPv{version}", who, asked, theirs, ask_crate(program, version, given + questions))
    left = {name: [rows[i] for i in range(len(rows)) if i not in told] for (name, rows), told in zip(lists.items(), shadowed(program, version, lists))}
    count = len(given) - len(row_lines(left))
    ours = ask_crate(program, version, row_lines(left) + questions)
    wrong += compare(f"the same without {count} of {len(given)} rows, which decide nothing", who, asked, theirs, ours)
    ours = ask_crate(program, version, given + [f"permitted {name}" for name in lists] + questions)
    return wrong + compare("the same by the rows of what is permitted", who, asked, theirs, ours[len(lists):])


def shadowed(program, version, lists):
    """The indices of the rows of each list that are told to decide nothing."""
    told = ask_crate(program, version, row_lines(lists) + [f"shadowed {name}" for name in lists])
    return [{int(it) for it in line.split()} for line in told]
