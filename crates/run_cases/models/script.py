"""The lines of `stdin` that make a call, and its line of `stdout`. ../src/main.rt says what they are."""

SCRIPT, LINES = [], []
# what the program has
HELD = {}

NUMBERS = {
    "ContinueEgress": 100,
    "ForwardNextHop": 101,
    "ForwardLocal": 102,
    "IngressSCMPHandleRequest": 103,
    "EgressSCMPHandleRequest": 104,
    "Reversed": 110,
    "At": 111,
    "Segment": 112,
    "passed": 120,
    "not passed": 121,
}


def numbered(answer):
    """An answer by its number: a model has a word for it, or 'refused' and the number."""
    if answer.startswith("refused "):
        return answer.removeprefix("refused ")
    word = next(word for word in NUMBERS if f"{answer} ".startswith(f"{word} "))
    return f"{NUMBERS[word]}{answer.removeprefix(word)}"


def spelled(octets, sizes):
    """In hex, in groups of these sizes, without the zeros at the end, each group with a space in front."""
    octets, groups = octets.rstrip(b"\0"), []
    for size in sizes:
        groups.append(octets[:size].hex())
        octets = octets[size:]
    return "".join(f" {group}" for group in groups + [octets.hex()] if group)


def infos(path):
    return sum(int.from_bytes(path[:4], "big") >> shift & 63 != 0 for shift in (12, 6, 0)) if len(path) >= 4 else 0


def put_whole(name, octets):
    sizes = {
        "path": lambda: [4] + [8] * infos(octets) + [12] * (len(octets) // 12),
        "numbers": lambda: [2] * (len(octets) // 2),
    }
    if name != "itinerary":
        SCRIPT.append(f"{name} {len(octets)}" + spelled(octets, sizes.get(name, list)()))
        return
    SCRIPT.append(f"itinerary {len(octets)}")
    for index in range((len(octets) + 31) // 32):
        record = octets[32 * index : 32 * index + 32]
        if any(record):
            SCRIPT.append(f"record {index}" + spelled(record, [2, 2, 2, 2, 16] if any(record[5:]) else [2, 2, 1]))


def put(name, octets):
    """What differs from what the program has; all of it, where it's short, has another size or differs in many places."""
    octets, held = bytes(octets), HELD.get(name)
    HELD[name] = octets
    if octets == held:
        return
    if held is None or len(held) != len(octets) or len(octets) <= 16:
        put_whole(name, octets)
        return
    starts, ends = [], []
    for at in range(len(octets)):
        if held[at] != octets[at]:
            if not ends or ends[-1] != at:
                starts.append(at)
                ends.append(at)
            ends[-1] = at + 1
    if len(starts) > 4:
        put_whole(name, octets)
        return
    for start, end in zip(starts, ends):
        SCRIPT.append(f"edit {name} {start} {octets[start:end].hex()}")


def put_table(ids, states, key):
    put("numbers", b"".join(number.to_bytes(2, "big") for number in ids))
    put("states", bytes(states))
    put("key", key)


def call(name, label, path, left, answer, first=0, second=0, ignore_macs=False, edition=1):
    """`answer` by its number."""
    put("path", path)
    words = f"{name} {edition} {first} {second} {int(ignore_macs)} {label}"
    SCRIPT.append(f"call {words}")
    changed = "".join(f" {at}={byte:02x}" for at, byte in enumerate(left) if byte != path[at])
    LINES.append(f"{words}: {answer}, left{changed}")


def begin(title):
    """A list of cases, which can be read by itself."""
    SCRIPT.append(f"# {title}")
    HELD.clear()
