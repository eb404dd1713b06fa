"""Cases of the step, its halves and the journey check, each in both editions: peering paths, and P where it may not be.

The step's model is step.py, the journey's journey.py, with its two ways to a verdict.
"""
import random
from collections import namedtuple

import journey as model
import script
from journey import Header, Station, hop_mac, step_model

# ---- signed paths, from hops in path order

KEY = step_model.RFC_4493
Hop = namedtuple("Hop", "ingress egress exp_time key", defaults=(0, KEY))
SEGMENT_IDS, PEERING = [0x1234, 0x5678, 0x9ABC], 2


def numbers(*parts):
    return b"".join(number.to_bytes(2, "big") for number in parts)


def segment(flags, segment_id, timestamp, hops, peering_hop=None):
    """An info field and hop fields with right MACs. A peering hop's head is not in the chain."""
    cons_dir, fields = flags & 1, {}
    for place in range(len(hops)) if cons_dir else reversed(range(len(hops))):
        hop = hops[place]
        interfaces = (hop.ingress, hop.egress) if cons_dir else (hop.egress, hop.ingress)
        mac = hop_mac(hop.key, segment_id, timestamp, hop.exp_time, *interfaces)
        fields[place] = segment_id, bytes([0, hop.exp_time]) + numbers(*interfaces) + mac
        if place != peering_hop:
            segment_id = step_model.beta_step(segment_id, mac)
    info = bytes([flags, 0]) + numbers(fields[0][0]) + timestamp.to_bytes(4, "big")
    return info, [fields[place][1] for place in range(len(hops))]


def built(segments, directions, flags=PEERING, timestamps=(1000, 1000, 1000), lengths=None, chained=False):
    """A path at its start. `flags` go into the info fields; if `chained`, a peering hop is in the chain like others."""
    lengths = lengths or ([len(hops) for hops in segments] + [0, 0])[:3]
    flags = [flags] * len(segments) if isinstance(flags, int) else flags
    peering_hops = [None] * 3
    if len(segments) == 2 and not chained:
        peering_hops = [len(segments[0]) - 1, 0]
    made = []
    for at, hops in enumerate(segments):
        made.append(segment(directions[at] | flags[at], SEGMENT_IDS[at], timestamps[at], hops, peering_hops[at]))
    return bytes(step_model.path_of(step_model.meta(0, 0, *lengths), *made))


def with_hop(segments, at, place, **fields):
    """A copy of the hops, one of them with other fields."""
    copy = [list(hops) for hops in segments]
    copy[at][place] = copy[at][place]._replace(**fields)
    return copy


def edited(path, *edits):
    """A copy with bytes changed: pairs of a place and a byte."""
    copy = bytearray(path)
    for at, byte in edits:
        assert copy[at] != byte
        copy[at] = byte
    return bytes(copy)


def hop_place(path, hop, at):
    return Header(path).hop_at(hop) + at


DIRECTIONS = [[1, 1], [1, 0], [0, 1], [0, 0]]


def spelled(lengths, directions=None):
    text = f"({','.join(map(str, lengths))})"
    return text if directions is None else text + "".join(", C set" if bit else ", C clear" for bit in directions)


# ---- the calls

EDITIONS = 1, 2
IDS, STATES = list(range(1, 9)), [6, 6, 6, 6, 6, 6, 7, 7]
# with the answers in the second edition
CASES, ANSWERS = [], []


def model_call(name, path, states, interface, time, edition):
    """The answer by its number, and the bytes left."""
    left, step_model.KEY = bytearray(path), KEY
    given = left, IDS, states, interface, time, False, edition
    calls = {"step": "go_through", "ingress": "go_in", "egress": "go_out"}
    try:
        answer = getattr(step_model, calls[name])(*given)
        text = script.numbered(answer[0] if name == "ingress" else answer)
    except model.No as no:
        text = " ".join(map(str, no.args)) + step_model.scmp(*no.args)
    return text, bytes(left)


def call(name, label, path, interface, time=1337, states=STATES, expected=None):
    """`expected`: the number that the case is there for, in the second edition. Gives what that edition leaves."""
    script.put_table(IDS, states, KEY)
    for edition in EDITIONS:
        text, left = model_call(name, path, states, interface, time, edition)
        script.call(name, label, path, left, text, interface, time, edition=edition)
    assert expected is None or text.split(",")[0].split()[0] == str(expected), (label, text, expected)
    CASES.append((name, label, path, states, interface, time))
    ANSWERS.append((text, left))
    return left


def model_journey(does_pass, path, itinerary, earliest, latest, edition):
    random.seed(1)
    return script.numbered(model.verdict(does_pass, path, itinerary, earliest, latest, edition))


def journey(expected, label, path, plan, earliest=1000, latest=1337):
    """`expected`: the numbers in the first edition and in the second."""
    itinerary = itinerary_of(plan)
    script.put("itinerary", itinerary)
    for edition, number in zip(EDITIONS, expected):
        given = path, itinerary, earliest, latest, edition
        text, driven = model_journey(model.passes, *given), model_journey(model.travels, *given)
        assert text == driven == str(number), (label, edition, text, driven, number)
        script.call("journey", label, path, path, text, earliest, latest, edition=edition)
    CASES.append(("journey", label, path, itinerary, earliest, latest))
    ANSWERS.append((text, path))


# ---- the step: whole journeys. Each AS is entered by 1 and left by 2; the peering link is left by 7, entered by 8


def hops_of(lengths):
    segments = [[Hop(1, 2) for _ in range(length)] for length in lengths]
    segments[0][0] = segments[0][0]._replace(ingress=0)
    if len(lengths) == 2:
        segments[0][-1] = segments[0][-1]._replace(egress=7)
        segments[1][0] = segments[1][0]._replace(ingress=8)
    segments[-1][-1] = segments[-1][-1]._replace(egress=0)
    return segments


def arrival_of(lengths, hop):
    return 0 if hop == 0 else 8 if hop == lengths[0] else 1


def states_before(path, lengths):
    """What the path is when it comes to each hop, in the second edition."""
    states = [path]
    for hop in range(sum(lengths) - 1):
        states.append(model_call("step", states[-1], STATES, arrival_of(lengths, hop), 1337, 2)[1])
    return states


def at_hop(lengths, directions, hop, segments=None, **signing):
    segments = segments or hops_of(lengths)
    return states_before(built(segments, directions, **signing), lengths)[hop]


def whole_journeys():
    for lengths in [1, 1], [2, 1], [1, 2], [3, 2]:
        for directions in DIRECTIONS:
            path = built(hops_of(lengths), directions)
            for hop in range(sum(lengths)):
                last = hop + 1 == sum(lengths)
                label = f"{spelled(lengths, directions)}, hop {hop}"
                path = call("step", label, path, arrival_of(lengths, hop), expected=102 if last else 101)


def long_journeys():
    for lengths, directions in ([63, 1], [0, 1]), ([1, 63], [0, 1]):
        path = built(hops_of(lengths), directions)
        for hop in range(64):
            label = f"{spelled(lengths)}, hop {hop}"
            path = call("step", label, path, arrival_of(lengths, hop), expected=102 if hop == 63 else 101)


def replies():
    """The path as it was delivered, reversed: it comes home."""
    for directions in DIRECTIONS:
        lengths = [2, 2]
        path = at_hop(lengths, directions, 3)
        path = bytearray(model_call("step", path, STATES, 1, 1337, 2)[1])
        step_model.turn_around(path)
        for hop, arrival in enumerate([0, 2, 7, 2]):
            label = f"reply, {spelled(lengths, directions)}, hop {hop}"
            path = call("step", label, bytes(path), arrival, expected=102 if hop == 3 else 101)


def halves():
    """Each half at each hop: ingress from outside and from local hosts, and egress on what the first leaves."""
    for lengths in [2, 2], [3, 3]:
        for directions in DIRECTIONS:
            for hop, path in enumerate(states_before(built(hops_of(lengths), directions), lengths)):
                label = f"{spelled(lengths, directions)}, hop {hop}"
                call("ingress", f"{label}, from local hosts", path, 0)
                left = path if hop == 0 else call("ingress", label, path, arrival_of(lengths, hop))
                if hop + 1 != sum(lengths):
                    call("egress", label, left, 7 if hop + 1 == lengths[0] else 2, expected=101)


# ---- the step: refusals at the peering hops


def first_peering_hop():
    lengths = [2, 2]
    for directions in [1, 0], [0, 1]:
        name = f"{spelled(lengths, directions)}, first peering hop"
        path = at_hop(lengths, directions, 1)
        call("step", f"{name}, link down", path, 1, states=[6, 6, 6, 6, 6, 6, 3, 7], expected=17)
        other = at_hop(lengths, directions, 1, with_hop(hops_of(lengths), 0, 1, egress=9))
        call("step", f"{name}, leaving interface not listed", other, 1, expected=15)
        call("step", f"{name}, wrong arrival", path, 3, expected=9)
        for into, out in (5, 5), (5, 7), (4, 4), (2, 7):
            states = [into, 6, 6, 6, 6, 6, out, 7]
            call("step", f"{name}, link states {into} and {out}", path, 1, states=states, expected=101)
        call("step", f"{name}, state 8 listed", path, 1, states=[8] * 8, expected=1)
        for half, given in ("step", 1), ("egress", 7):
            call(half, f"{name}, timestamp in the future", path, given, 999, expected=10)
            call(half, f"{name}, expired", path, given, 1338, expected=11)
            place = hop_place(path, 1, 11)
            wrong = edited(path, (place, path[place] ^ 1))
            call(half, f"{name}, wrong MAC", wrong, given, expected=12)
        call("egress", f"{name}, another interface given", path, 3, expected=19)
        for bits in 1, 2, 3:
            alert = edited(path, (hop_place(path, 1, 0), bits))
            call("step", f"{name}, alert bits {bits}", alert, 1)
            call("step", f"{name}, alert bits {bits}, from local hosts", alert, 0)
            call("egress", f"{name}, alert bits {bits}", alert, 7)
            call("egress", f"{name}, alert bits {bits}, another interface given", alert, 3, expected=19)
        ahead = edited(path, (hop_place(path, 2, 0), 3))
        call("step", f"{name}, alerts at the second", ahead, 1, expected=101)


def second_peering_hop():
    lengths = [2, 2]
    for directions in [1, 0], [0, 1]:
        name = f"{spelled(lengths, directions)}, second peering hop"
        path = at_hop(lengths, directions, 2)
        call("step", f"{name}, wrong arrival", path, 7, expected=9)
        call("ingress", f"{name}, wrong arrival", path, 7, expected=9)
        call("step", f"{name}, from local hosts", path, 0, expected=101)
        free = at_hop(lengths, directions, 2, with_hop(hops_of(lengths), 1, 0, ingress=0))
        call("step", f"{name}, ingress 0", free, 7, expected=101)
        call("step", f"{name}, leaving link down", path, 8, states=[6, 2, 6, 6, 6, 6, 7, 7], expected=17)
        call("step", f"{name}, link states 5 and 5", path, 8, states=[5] * 8, expected=101)
        call("egress", f"{name}, another interface given", path, 3, expected=19)
        for half, given in ("step", 8), ("egress", 2):
            call(half, f"{name}, timestamp in the future", path, given, 999, expected=10)
            call(half, f"{name}, expired", path, given, 1338, expected=11)
            place = hop_place(path, 2, 11)
            wrong = edited(path, (place, path[place] ^ 1))
            call(half, f"{name}, wrong MAC", wrong, given, expected=12)
        for bits in 1, 2, 3:
            alert = edited(path, (hop_place(path, 2, 0), bits))
            call("step", f"{name}, alert bits {bits}", alert, 8)
            call("step", f"{name}, alert bits {bits}, from local hosts", alert, 0)
            call("egress", f"{name}, alert bits {bits}", alert, 2)


def places():
    path = built(hops_of([2, 2]), [1, 1])
    for curr_inf, curr_hf, number in (1, 1, 7), (0, 2, 7), (0, 4, 5), (2, 2, 7):
        moved = edited(path, (0, curr_inf << 6 | curr_hf))
        for half in "step", "ingress", "egress":
            call(half, f"peering path, CurrINF {curr_inf}, CurrHF {curr_hf}", moved, 1, expected=number)
    for lengths in [1, 1], [2, 1], [1, 2]:
        last = at_hop(lengths, [1, 1], sum(lengths) - 1)
        call("egress", f"{spelled(lengths)}, last hop", last, 0, expected=5)
    path = at_hop([1, 1], [1, 0], 0)
    call("step", "12 bytes behind the header", path + b"\xff" * 12, 0, expected=101)
    call("step", "a byte missing", path[:-1], 0, expected=3)
    reserved = edited(path, (1, 0xFC), (4, 0xFF), (5, 0xFF), (12, 0xFE), (hop_place(path, 0, 0), 0xFC))
    call("step", "reserved bits", reserved, 0, expected=101)
    call("egress", "reserved bits", reserved, 7, expected=101)
    unnamed = edited(path, (4, 0xFD), (12, 0xFC))
    call("step", "all bits of the flags but P", unnamed, 0, expected=6)
    call("egress", "all bits of the flags but P", unnamed, 7, expected=18)


# ---- the step: 28. An alert at hop 0 shows that no byte is left changed

ONE, TWO, THREE = [3], [2, 2], [2, 2, 2]
MISPLACED = [
    ("one segment", ONE, [2], None),
    ("P in the first of two", TWO, [2, 0], None),
    ("P in the second of two", TWO, [0, 2], None),
    ("(2,0,2), P in both", TWO, [2, 2], [2, 0, 2]),
    ("(2,0,2), P behind the empty segment", TWO, [0, 2], [2, 0, 2]),
    ("three segments, P in each", THREE, [2, 2, 2], None),
    ("three segments, P in two", THREE, [2, 2, 0], None),
    ("three segments, P in the last", THREE, [0, 0, 2], None),
]


def misplaced(lengths, flags, declared):
    path = built(hops_of(lengths), [0, 1, 1], flags, lengths=declared)
    return edited(path, (hop_place(path, 0, 0), 3), (hop_place(path, 1, 0), 3))


def peering_refused():
    for name, lengths, flags, declared in MISPLACED:
        path = misplaced(lengths, flags, declared)
        for half, given in ("step", 0), ("ingress", 0), ("egress", 2):
            call(half, f"{name}, first hop", path, given, expected=28)
        second = edited(path, (0, 1))
        for half in "step", "ingress", "egress":
            call(half, f"{name}, second hop, another interface", second, 3, 2000, expected=28)


def order():
    for flags, name in ([2, 2], "P in both"), ([0, 2], "P in the second"):
        path = misplaced(TWO, flags, [0, 2, 2])
        start = edited(path, (0, 0x40))
        for half in "step", "ingress", "egress":
            call(half, f"(0,2,2), {name}", start, 3, expected=28)
        end = edited(path, (0, 0x41))
        call("ingress", f"(0,2,2), {name}, CurrHF 1", end, 3, expected=8)
        call("step", f"(0,2,2), {name}, CurrHF 1", end, 3, expected=8)
        call("egress", f"(0,2,2), {name}, CurrHF 1", end, 3, expected=28)
        path = misplaced(TWO, flags, [2, 0, 2])
        behind = edited(path, (0, 0x82))
        for half in "step", "ingress", "egress":
            call(half, f"(2,0,2), {name}, CurrHF 2, CurrINF 2", behind, 3, expected=8)
    path = misplaced(ONE, [2], None)
    for half in "step", "ingress", "egress":
        call(half, "one segment, CurrHF 3 of 3", edited(path, (0, 3)), 3, expected=5)
        call(half, "one segment, CurrINF 1", edited(path, (0, 0x41)), 3, expected=7)
        call(half, "one segment, state 8 listed", path, 3, states=[8] * 8, expected=1)
        call(half, "one segment, a byte missing", path[:-1], 3, expected=3)
        call(half, "one segment, last hop", edited(path, (0, 2)), 3, expected=28)
    for lengths, flags in ([1], [2]), ([1, 1], [2, 0]), ([1, 1], [0, 2]), ([1, 1, 1], [2, 2, 2]), ([1, 2], [0, 2]):
        path = built(hops_of(lengths), [1, 1, 1], flags)
        name = f"{spelled(lengths)}, P in {sum(map(bool, flags))} of {len(flags)}"
        call("step", name, path, 0, expected=6)
        call("ingress", name, path, 0, expected=6)
        call("egress", name, path, 3, expected=28)


# ---- journeys: a station for each hop


def key(station):
    return bytes(range(station + 1, station + 17))


def arrival(station):
    return 10 * station + 1


def leaving(station):
    return 10 * station + 2


def signed_hops(lengths):
    segments, station = [], 0
    for length in lengths:
        segments.append([])
        for _ in range(length):
            into, out = arrival(station) if station else 0, leaving(station) if station + 1 != sum(lengths) else 0
            segments[-1].append(Hop(into, out, 0, key(station)))
            station += 1
    return segments


PEER_UP = 7


def stations_for(count):
    """What is asked for is in a table, nothing else."""
    stations = []
    for station in range(count):
        table = [(leaving(station), PEER_UP)] if station + 1 != count else []
        stations.append(Station(arrival(station) if station else 0, key(station), table))
    return stations


def itinerary_of(stations):
    """The stations from record 1 on, and behind them their tables."""
    records, tables = [], []
    for at, station in enumerate(stations):
        first = len(stations) + 1 + len(tables) if station.table else 0
        following = at + 2 if at + 1 < len(stations) else 0
        records.append(numbers(following, station.arrival, first, 0) + station.key)
        for place, (number, state) in enumerate(station.table):
            after = first + place + 1 if place + 1 < len(station.table) else 0
            tables.append(numbers(after, number) + bytes([state]))
    return b"".join(octets.ljust(32, b"\0") for octets in [numbers(1 if stations else 0)] + records + tables)


PASSED, FAILED = 120, 121


def with_station(stations, at, **fields):
    copy = list(stations)
    copy[at] = copy[at]._replace(**fields)
    return copy


def journeys():
    for lengths in [1, 1], [2, 1], [1, 2], [3, 2], [2, 3]:
        for directions in DIRECTIONS:
            path = built(signed_hops(lengths), directions)
            journey([23, PASSED], spelled(lengths, directions), path, stations_for(sum(lengths)))
    for lengths, directions in ([63, 1], [0, 1]), ([1, 63], [0, 1]), ([32, 32], [0, 0]), ([32, 32], [1, 1]):
        path = built(signed_hops(lengths), directions)
        journey([23, PASSED], spelled(lengths, directions), path, stations_for(64))


def counts():
    path, plan = built(signed_hops([2, 2]), [0, 1]), stations_for(4)
    journey([23, 23], "a station more", path, stations_for(5))
    journey([FAILED, 23], "a station less", path, stations_for(3))
    for flags in [0, 0], [2, 0], [0, 2], [4, 4]:
        other = built(signed_hops([2, 2]), [0, 1], flags)
        journey([23, 23], f"P bits {flags}, a station for each hop", other, plan)
    for lengths in [1, 1], [2, 1]:
        other = built(signed_hops(lengths), [0, 1], [2, 0])
        journey([23, 23], f"{spelled(lengths)}, P in one, a station for each hop", other, stations_for(sum(lengths)))
        fewer = stations_for(sum(lengths) - 1)
        journey([FAILED, FAILED], f"{spelled(lengths)}, P in one, a station less", other, fewer)
    journey([23, 24], "not at the start", edited(path, (0, 1)), plan)
    journey([23, 25], "alert at a peering hop", edited(path, (hop_place(path, 1, 0), 1)), plan)
    journey([23, 23], "unsound, and P misplaced", built(signed_hops([2, 2]), [0, 1], [2, 0]), plan[:3] + [plan[2]])


# What the first edition passes: stations of a path whose segments meet in one AS.
CHILD_UP = 6


def meeting(lengths):
    """Hops and stations where both hops of a change are one AS's."""
    segments, stations = [], [Station(0, key(0), [])]
    for at, length in enumerate(lengths):
        segments.append([])
        for place in range(length):
            station = len(stations) - 1
            into = arrival(station) if place else 0
            out = leaving(station) if place + 1 != length else 0
            segments[-1].append(Hop(into, out, 0, key(station)))
            if out:
                before = [(arrival(station), CHILD_UP)] if place == 0 and at else []
                stations[-1] = stations[-1]._replace(table=before + [(out, CHILD_UP)])
                stations.append(Station(arrival(station + 1), key(station + 1), []))
    return segments, stations


def misplaced_journeys():
    for name, lengths, flags, declared in MISPLACED:
        segments, stations = meeting(lengths)
        path = built(segments, [0, 1, 1], flags, lengths=declared, chained=True)
        first = FAILED if declared == [2, 0, 2] else PASSED
        journey([first, FAILED], f"{name}, segments that meet", path, stations)
        clear = built(segments, [0, 1, 1], 0, lengths=declared, chained=True)
        journey([first, first], f"{name}, without P", clear, stations)
    segments, stations = meeting(TWO)
    path = built(segments, [0, 1], PEERING, chained=True)
    journey([PASSED, 23], "a path of two segments that meet, P in both", path, stations)
    path = built(segments, [0, 1], PEERING, lengths=[0, 2, 2], chained=True)
    journey([FAILED, FAILED], "(0,2,2), P in both, segments that meet", path, stations)


def macs():
    lengths, plan = [3, 3], stations_for(6)
    for directions in DIRECTIONS:
        name = spelled(lengths, directions)
        path = built(signed_hops(lengths), directions)
        for hop in range(6):
            place = hop_place(path, hop, 11)
            journey([23, FAILED], f"{name}, MAC of hop {hop}", edited(path, (place, path[place] ^ 1)), plan)
        chained = built(signed_hops(lengths), directions, chained=True)
        for at in range(2):
            # in the other direction no chain reaches the peering hop
            if directions[at] == at:
                mixed = with_segment(path, chained, at)
                journey([23, FAILED], f"{name}, peering head in the chain of segment {at}", mixed, plan)
        journey([23, FAILED], f"{name}, keys of the peering hops exchanged", path, exchanged(plan))
        segment_id = edited(path, (7, path[7] ^ 1))
        journey([23, FAILED], f"{name}, SegID of the first", segment_id, plan)
        segment_id = edited(path, (15, path[15] ^ 1))
        journey([23, FAILED], f"{name}, SegID of the second", segment_id, plan)
    for directions in DIRECTIONS:
        path = built(signed_hops([1, 1]), directions)
        for hop in range(2):
            place, plan = hop_place(path, hop, 11), stations_for(2)
            label = f"{spelled([1, 1], directions)}, MAC of hop {hop}"
            journey([23, FAILED], label, edited(path, (place, path[place] ^ 1)), plan)


def with_segment(path, other, at):
    """A path of lengths (3,3,0) with one segment of another such path."""
    copy, infos, hops = bytearray(path), 4 + 8 * at, Header(path).hop_at(3 * at)
    for start, end in (infos, infos + 8), (hops, hops + 36):
        copy[start:end] = other[start:end]
    return bytes(copy)


def exchanged(plan):
    return plan[:2] + [plan[2]._replace(key=plan[3].key), plan[3]._replace(key=plan[2].key)] + plan[4:]


def clocks():
    lengths, plan = [2, 2], stations_for(4)
    for at, which in enumerate(["first", "second"]):
        longer = [[hop._replace(exp_time=1) for hop in hops] for hops in signed_hops(lengths)]
        path = built(with_hop(longer, at, 1 - at, exp_time=0), [0, 1])
        journey([23, PASSED], f"{which} peering hop's expiry is latest", path, plan)
        journey([23, FAILED], f"{which} peering hop's expiry below latest", path, plan, 1000, 1338)
        timestamps = [1000, 1000, 1000]
        timestamps[at] = 1001
        path = built(signed_hops(lengths), [0, 1], timestamps=timestamps)
        journey([23, FAILED], f"{which} segment's timestamp above earliest", path, plan)
        journey([23, PASSED], f"{which} segment's timestamp is earliest", path, plan, 1001, 1337)


def links():
    lengths, plan = [2, 2], stations_for(4)
    path = built(signed_hops(lengths), [0, 1])
    for state in 4, 5, 6:
        other = with_station(plan, 1, table=[(arrival(1), state), (leaving(1), state)])
        journey([23, PASSED], f"first peering hop between links of state {state}", path, other)
        other = with_station(plan, 2, table=[(arrival(2), state), (leaving(2), state)])
        journey([23, PASSED], f"second peering hop between links of state {state}", path, other)
    for station, which in (1, "first"), (2, "second"):
        down = with_station(plan, station, table=[(leaving(station), 3)])
        journey([23, FAILED], f"{which} peering hop's leaving link down", path, down)
        unlisted = with_station(plan, station, table=[(99, PEER_UP)])
        journey([23, FAILED], f"{which} peering hop's leaving interface not listed", path, unlisted)
        other = with_station(plan, station, arrival=99)
        journey([23, FAILED], f"{which} peering hop, another arrival", path, other)
        free = with_hop(signed_hops(lengths), station - 1, 2 - station, ingress=0)
        journey([23, PASSED], f"{which} peering hop, ingress 0", built(free, [0, 1]), other)
        zero = with_station(plan, station, arrival=0)
        journey([23, 23], f"{which} peering hop, arrival 0", path, zero)


def put_cases():
    whole_journeys()
    long_journeys()
    replies()
    halves()
    first_peering_hop()
    second_peering_hop()
    places()
    peering_refused()
    order()
    journeys()
    counts()
    misplaced_journeys()
    macs()
    clocks()
    links()
