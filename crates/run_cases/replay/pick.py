"""Picks the replay list out of what `differential/run sample` prints, and prints it: README.md has the command.

So many lines of each answer of each call. Lines are sorted by kind: how many segments the path has, the direction of its current
segment, whether MACs are ignored, the SCMP error, whether bytes were changed. The shortest of each kind go first, then the next.
"""
import collections
import itertools
import sys

EACH = 10
CALLS = ["step", "ingress", "egress", "reverse", "expiration"]
NUMBERS = {
    "ContinueEgress": 100,
    "ForwardNextHop": 101,
    "ForwardLocal": 102,
    "IngressSCMPHandleRequest": 103,
    "EgressSCMPHandleRequest": 104,
    "Reversed": 110,
    "At": 111,
}


def joined(words):
    return ",".join(words) or "-"


def kind(path, ignore_macs, scmp, is_changed):
    meta = int.from_bytes(path[:4].ljust(4, b"\0"), "big")
    segments = sum(meta >> shift & 63 != 0 for shift in (12, 6, 0))
    info = 4 + 8 * (meta >> 30)
    cons_dir = path[info] & 1 if info < len(path) else None
    return segments, cons_dir, ignore_macs, scmp, is_changed


def read(line):
    """A line of the sample as call, number, kind, line of the list."""
    call, path, ids, states, interface, time, key, ignore_macs, answer, left = line.rstrip("\n").split("\t")
    answer, _, scmp = answer.partition(", SCMP ")
    name, *values = answer.removeprefix("refused ").split()
    number = NUMBERS.get(name) or int(name)
    words = [call]
    if call not in ("reverse", "expiration"):
        states = "".join(f"{int(state):02x}" for state in states.split()) or "-"
        words += [joined(ids.split()), states, interface, time, key, ignore_macs]
    words += [path or "-", str(number), joined(values), joined(scmp.split()), "=" if left == path else left]
    return call, number, kind(bytes.fromhex(path), ignore_macs, scmp, left != path), " ".join(words)


def pick(lines):
    """`lines` has the lines of each kind."""
    rows = itertools.zip_longest(*(sorted(each, key=lambda line: (len(line), line)) for each in lines))
    chosen = (line for row in rows for line in sorted(filter(None, row), key=lambda line: (len(line), line)))
    return list(itertools.islice(chosen, EACH))


lines = collections.defaultdict(lambda: collections.defaultdict(set))
for line in sys.stdin:
    call, number, what, text = read(line)
    lines[CALLS.index(call), number][what].add(text)

for _, kinds in sorted(lines.items()):
    print(*pick(kinds.values()), sep="\n")
