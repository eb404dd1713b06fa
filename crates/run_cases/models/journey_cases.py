"""The cases of the journey check.

The verdicts are those of journey.py: its two ways to one, and the verdict that the case is there for, must agree.
"""
import random
from collections import namedtuple

import journey as model
import script
from journey import ALLOWED, Header, Station, hop_mac, step_model, u16

# ---- paths and itineraries


def numbers(*parts):
    return b"".join(number.to_bytes(2, "big") for number in parts)


def key(station):
    return bytes(range(station + 1, station + 17))


Hop = namedtuple("Hop", "ingress egress exp_time key", defaults=(0, 0, 0, key(0)))


def segment(cons_dir, segment_id, timestamp, hops, chained=True):
    """An info field and hop fields, from hops in path order. The MACs are right."""
    fields = []
    for hop in hops if cons_dir else hops[::-1]:
        interfaces = (hop.ingress, hop.egress) if cons_dir else (hop.egress, hop.ingress)
        mac = hop_mac(hop.key, segment_id, timestamp, hop.exp_time, *interfaces)
        fields.append((segment_id, bytes([0, hop.exp_time]) + numbers(*interfaces) + mac))
        if chained:
            segment_id ^= u16(mac, 0)
    if not cons_dir:
        fields.reverse()
    info = bytes([cons_dir, 0]) + numbers(fields[0][0]) + timestamp.to_bytes(4, "big")
    return info, [field for _, field in fields]


def path_of(lengths, *segments):
    return bytes(step_model.path_of(step_model.meta(0, 0, *lengths), *segments))


def arrival(station):
    return 10 * station + 1


def leaving(station):
    return 10 * station + 2


def hops_of(lengths):
    """Hops for each length, station after station. Interfaces that nothing asks about are 0."""
    station, segments = 0, []
    for length in lengths:
        hops = []
        for place in range(length):
            ingress = arrival(station) if place != 0 else 0
            egress = leaving(station) if place + 1 != length else 0
            hops.append(Hop(ingress, egress, 0, key(station)))
            station += place + 1 != length
        segments.append(hops)
    return segments


SEGMENT_IDS = [0x1234, 0x5678, 0x9ABC]


def built(segments, directions, timestamps=(1000, 1000, 1000), lengths=None):
    lengths = lengths or ([len(hops) for hops in segments] + [0, 0])[:3]
    made = zip(directions, SEGMENT_IDS, timestamps, segments)
    return path_of(lengths, *(segment(*parts) for parts in made))


def with_hop(segments, at, place, **fields):
    """A copy of the hops, one of them with other fields."""
    copy = [list(hops) for hops in segments]
    copy[at][place] = copy[at][place]._replace(**fields)
    return copy


CHILD_UP = 6


def stations_for(lengths):
    """A station for each hop, but one for both hops of a segment change. A table has only what is asked for."""
    stations = [Station(0, key(0), [])]
    for at, length in enumerate(lengths):
        for place in range(length - 1):
            station = len(stations) - 1
            into = [(arrival(station), CHILD_UP)] if place == 0 and at != 0 else []
            stations[station] = stations[station]._replace(table=into + [(leaving(station), CHILD_UP)])
            stations.append(Station(arrival(station + 1), key(station + 1), []))
    return stations


def station_record(following, arrival, first_interface, key):
    return (numbers(following, arrival, first_interface, 0) + key).ljust(32, b"\0")


def interface_record(following, number, state):
    return (numbers(following, number) + bytes([state])).ljust(32, b"\0")


def head_record(first_station):
    return numbers(first_station).ljust(32, b"\0")


def itinerary_of(stations):
    """The stations from record 1 on, and behind them their tables."""
    head, tables = head_record(1 if stations else 0), []
    records = []
    for at, station in enumerate(stations):
        first = len(stations) + 1 + len(tables)
        following = at + 2 if at + 1 < len(stations) else 0
        records.append(station_record(following, station.arrival, first if station.table else 0, station.key))
        for place, (number, state) in enumerate(station.table):
            after = first + place + 1 if place + 1 < len(station.table) else 0
            tables.append(interface_record(after, number, state))
    return b"".join([head] + records + tables)


def edited(octets, *edits):
    """A copy with bytes changed: pairs of a place and the bytes from there on."""
    copy = bytearray(octets)
    for at, new in edits:
        assert copy[at : at + len(new)] != new and at + len(new) <= len(copy)
        copy[at : at + len(new)] = new
    return bytes(copy)


def in_record(index, at, *new):
    return 32 * index + at, bytes(new)


# ---- the calls

CASES, ANSWERS = [], []


def case(expected, label, path, itinerary, earliest=1000, latest=1337):
    answer = model.verdict(model.passes, path, itinerary, earliest, latest)
    by_journey = model.verdict(model.travels, path, itinerary, earliest, latest)
    assert answer == by_journey == expected, (label, answer, by_journey, expected)
    assert all(label != before for before, *_ in CASES), label
    CASES.append((label, path, itinerary, earliest, latest))
    ANSWERS.append(answer)
    script.put("itinerary", itinerary)
    script.call("journey", label, path, path, script.numbered(answer), earliest, latest)


def passed(label, *given):
    case("passed", label, *given)


def not_passed(label, *given):
    case("not passed", label, *given)


def refused(number, label, *given):
    case(f"refused {number}", label, *given)


# ---- the cases: lengths and directions

MIXES = [[3], [2, 3], [2, 3, 2]]
ONE, TWO, THREE = map(hops_of, MIXES)
PLANS = [itinerary_of(stations_for(lengths)) for lengths in MIXES]


def directions_of(count):
    return [[number >> at & 1 for at in range(count)] for number in range(1 << count)]


def spelled_directions(directions):
    return ", ".join("C set" if cons_dir else "C clear" for cons_dir in directions)


def mixes():
    for lengths, plan in zip(MIXES, PLANS):
        for directions in reversed(directions_of(len(lengths))):
            passed(spelled_directions(directions), built(hops_of(lengths), directions), plan)


def spelled_lengths(lengths):
    return f"({','.join(map(str, lengths))})"


def short_lengths():
    """Nothing but the lengths is wrong: a one-hop segment has the links of a change."""
    alone = itinerary_of(stations_for([1]))
    not_passed("(0,0,0), one station", bytes(4), alone)
    not_passed("(1,0,0), one station", built(hops_of([1]), [1]), alone)
    last = Station(11, key(1), [(11, CHILD_UP), (12, CHILD_UP)])
    path = built(with_hop(hops_of([2, 1]), 1, 0, egress=12), [1, 1])
    not_passed("(2,1,0)", path, itinerary_of(stations_for([2])[:1] + [last]))
    first = Station(0, key(0), [(0, CHILD_UP), (2, CHILD_UP)])
    path = built(hops_of([1, 2]), [1, 1])
    not_passed("(1,2,0)", path, itinerary_of([first] + stations_for([2])[1:]))
    last = Station(21, key(2), [(21, CHILD_UP), (22, CHILD_UP)])
    path = built(with_hop(hops_of([2, 2, 1]), 2, 0, egress=22), [1, 1, 1])
    not_passed("(2,2,1)", path, itinerary_of(stations_for([2, 2])[:2] + [last]))


def empty_segments():
    for used, orders in ([2, 2], ([2, 0, 2], [0, 2, 2])), ([2], ([0, 2, 0], [0, 0, 2])):
        directions, plan = [1] * len(used), itinerary_of(stations_for(used))
        for lengths in orders:
            not_passed(spelled_lengths(lengths), built(hops_of(used), directions, lengths=lengths), plan)


def longest():
    lengths = [22, 21, 21]
    path, plan = built(hops_of(lengths), [0, 1, 0]), itinerary_of(stations_for(lengths))
    passed("64 hops", path, plan)
    not_passed("64 hops, last MAC wrong", edited(path, (795, bytes([path[795] ^ 1]))), plan)


# ---- timestamps and expiries


def clock_readings():
    plan = PLANS[0]
    for cons_dir in 1, 0:
        path, name = built(ONE, [cons_dir]), spelled_directions([cons_dir])
        passed(f"{name}, earliest is latest", path, plan, 1337, 1337)
        passed(f"{name}, both the timestamp", path, plan, 1000, 1000)
        not_passed(f"{name}, timestamp above earliest", path, plan, 999, 1337)
        not_passed(f"{name}, expiry below latest", path, plan, 1000, 1338)
        for place, which in enumerate(["first", "second", "last"]):
            longer = [[hop._replace(exp_time=1) for hop in ONE[0]]]
            path = built(with_hop(longer, 0, place, exp_time=0), [cons_dir])
            passed(f"{name}, {which} hop's expiry is latest", path, plan, 1000, 1337)
            not_passed(f"{name}, {which} hop's expiry below latest", path, plan, 1000, 1338)


def clock_readings_by_segment():
    plan = PLANS[2]
    for at, which in enumerate(["first", "second", "third"]):
        timestamps = [1000, 1000, 1000]
        timestamps[at] = 1001
        path = built(THREE, [0, 1, 0], timestamps)
        not_passed(f"{which} segment's timestamp above earliest", path, plan, 1000, 1337)
        passed(f"{which} segment's timestamp is earliest", path, plan, 1001, 1337)
        timestamps[at] = 999
        path = built(THREE, [0, 1, 0], timestamps)
        not_passed(f"{which} segment's expiry below latest", path, plan, 1000, 1337)
        passed(f"{which} segment's expiry is latest", path, plan, 1000, 1336)


def last_second():
    path = built(ONE, [1], [4294967000])
    passed("expiry 4294967295, the last reading", path, PLANS[0], 4294967000, 4294967295)
    not_passed("timestamp 4294967000 above earliest", path, PLANS[0], 4294966999, 4294967295)


# ---- MACs


def macs():
    plan = PLANS[0]
    for cons_dir in 1, 0:
        path, name = built(ONE, [cons_dir]), spelled_directions([cons_dir])
        for place, which in enumerate(["first", "second", "last"]):
            for octet in 0, 1, 5:
                at = 12 + 12 * place + 6 + octet
                wrong = edited(path, (at, bytes([path[at] ^ 1])))
                not_passed(f"{name}, {which} MAC, byte {octet}", wrong, plan)
        for station, which in enumerate(["first", "second", "last"]):
            at = 32 * (station + 1) + 8
            not_passed(f"{name}, {which} station's key", path, edited(plan, (at, b"\xff")))
        last = 32 * 3 + 8 + 15
        not_passed(f"{name}, last byte of a key", path, edited(plan, (last, b"\xff")))
        not_passed(f"{name}, SegID", edited(path, (7, bytes([path[7] ^ 1]))), plan)
        not_passed(f"{name}, the other direction", edited(path, (4, bytes([1 - cons_dir]))), plan)
        timestamp = edited(path, (11, bytes([path[11] - 1])))
        not_passed(f"{name}, another timestamp", timestamp, plan, 1000, 1336)
        not_passed(f"{name}, another ExpTime", edited(path, (25, b"\1")), plan)


def chains():
    """MACs that a wrong chain would find right."""
    plan = PLANS[0]
    for cons_dir in 1, 0:
        path, name = built(ONE, [cons_dir]), spelled_directions([cons_dir])
        unchained = path_of([3, 0, 0], segment(cons_dir, 0x1234, 1000, ONE[0], chained=False))
        not_passed(f"{name}, no MAC in the chain", unchained, plan)
        not_passed(f"{name}, a MAC too few in the chain", with_short_chain(path, ONE[0]), plan)
        more = edited(path, (6, numbers(u16(path, 6) ^ u16(path, 18))))
        not_passed(f"{name}, the first MAC too in the chain", more, plan)


def with_short_chain(path, hops):
    """A path of one segment. Each MAC is made without the last one that belongs into its chain."""
    path = bytearray(path)
    header = Header(path)
    for place, hop in enumerate(hops):
        segment_id = header.segment_id(0)
        for before in range(place - 1) if header.cons_dir(0) else range(1, place):
            segment_id ^= u16(header.mac(before), 0)
        fields = header.exp_time(place), header.cons_ingress(place), header.cons_egress(place)
        mac = hop_mac(hop.key, segment_id, header.timestamp(0), *fields)
        path[header.hop_at(place) + 6 : header.hop_at(place) + 12] = mac
    return bytes(path)


def macs_of_three():
    path, plan = built(THREE, [1, 0, 1]), PLANS[2]
    for hop in range(7):
        at = Header(path).hop_at(hop) + 11
        not_passed(f"three segments, MAC of hop {hop}", edited(path, (at, bytes([path[at] ^ 1]))), plan)
    for info in range(3):
        at = 4 + 8 * info + 3
        not_passed(f"three segments, SegID {info}", edited(path, (at, bytes([path[at] ^ 1]))), plan)
    for station in range(5):
        at = 32 * (station + 1) + 8 + 15
        not_passed(f"three segments, key of station {station}", path, edited(plan, (at, b"\xff")))


# ---- interfaces


def ingresses():
    for cons_dir in 1, 0:
        name = spelled_directions([cons_dir])
        path, plan = built(ONE, [cons_dir]), PLANS[0]
        for place, which in (1, "second"), (2, "last"):
            for ingress in 0, 99:
                other = built(with_hop(ONE, 0, place, ingress=ingress), [cons_dir])
                label = f"{name}, {which} hop's ingress {ingress}"
                passed(label, other, plan) if ingress == 0 else not_passed(label, other, plan)
            at = 32 * (place + 1) + 3
            not_passed(f"{name}, arrival at the {which} station", path, edited(plan, (at, b"\x63")))
        passed(f"{name}, first hop's ingress 99", built(with_hop(ONE, 0, 0, ingress=99), [cons_dir]), plan)
        passed(f"{name}, last hop's egress 99", built(with_hop(ONE, 0, 2, egress=99), [cons_dir]), plan)


def leaving_interfaces():
    for cons_dir in 1, 0:
        name = spelled_directions([cons_dir])
        path, plan = built(ONE, [cons_dir]), PLANS[0]
        for station, which in enumerate(["first", "second"]):
            table = 4 + station
            other, down = edited(plan, in_record(table, 3, 99)), edited(plan, in_record(table, 4, 2))
            not_passed(f"{name}, {which} station doesn't list the leaving interface", path, other)
            not_passed(f"{name}, {which} station's leaving interface is down", path, down)
            core = edited(plan, in_record(table, 4, 4))
            passed(f"{name}, {which} station's leaving interface to a core", path, core)
        none = edited(plan, in_record(2, 5, 0))
        not_passed(f"{name}, second station without a table", path, none)
        by_zero = built(with_hop(ONE, 0, 1, egress=0), [cons_dir])
        not_passed(f"{name}, leaving by 0, not listed", by_zero, plan)
        passed(f"{name}, leaving by 0, listed as up", by_zero, edited(plan, in_record(5, 3, 0)))


# ---- segment changes: the first at station 1, the second at station 3

# their tables in the itinerary: the record of the arrival, then that of the leaving interface
JOINT_TABLE, NEXT_JOINT_TABLE = 7, 10
LINKS = ["core", "parent", "child", "peer"]


def joint_ingresses():
    plan = PLANS[2]
    zero = edited(plan, in_record(JOINT_TABLE, 3, 0))
    for directions in [1, 0, 1], [0, 1, 0]:
        name = spelled_directions(directions[:2])
        path = built(THREE, directions)
        first = {ingress: built(with_hop(THREE, 0, 1, ingress=ingress), directions) for ingress in (0, 99)}
        second = {ingress: built(with_hop(THREE, 1, 0, ingress=ingress), directions) for ingress in (11, 99)}
        listed = edited(plan, in_record(JOINT_TABLE, 3, 12), in_record(JOINT_TABLE + 1, 3, 99))
        not_passed(f"{name}, change, first hop's ingress 99, listed", first[99], listed)
        not_passed(f"{name}, change, first hop's ingress 0, not listed", first[0], plan)
        passed(f"{name}, change, first hop's ingress 0, listed", first[0], zero)
        not_passed(f"{name}, change, second hop's ingress 99", second[99], plan)
        passed(f"{name}, change, second hop's ingress is the arrival", second[11], plan)
        passed(f"{name}, change, first hop's egress 99", built(with_hop(THREE, 0, 1, egress=99), directions), plan)
        third = built(with_hop(THREE, 2, 0, ingress=99), directions)
        not_passed(f"{name}, second change, second hop's ingress 99", third, plan)


def joint_tables():
    plan = PLANS[2]
    for directions in [1, 0, 1], [0, 1, 0]:
        path = built(THREE, directions)
        for table, which in (JOINT_TABLE, "change"), (NEXT_JOINT_TABLE, "second change"):
            name = f"{spelled_directions(directions)}, {which}"
            unlisted = edited(plan, in_record(table, 3, 10))
            not_passed(f"{name}, arrival not listed", path, unlisted)
            passed(f"{name}, arrival's link is down", path, edited(plan, in_record(table, 4, 2)))
            other = edited(plan, in_record(table + 1, 3, 99))
            not_passed(f"{name}, leaving interface not listed", path, other)
            down = edited(plan, in_record(table + 1, 4, 2))
            not_passed(f"{name}, leaving interface is down", path, down)


def link_pairs():
    path, plan = built(TWO, [0, 1]), PLANS[1]
    table = 6
    for into, name in enumerate(LINKS):
        for out, next_name in enumerate(LINKS):
            states = edited_states(plan, table, 4 + into, 4 + out)
            label = f"{name} to {next_name}"
            passed(label, path, states) if (into, out) in ALLOWED else not_passed(label, path, states)
    path, plan = built(THREE, [0, 1, 1]), PLANS[2]
    not_passed("core to core at the second change", path, edited_states(plan, NEXT_JOINT_TABLE, 4, 4))
    passed("child to core at the second change", path, edited_states(plan, NEXT_JOINT_TABLE, 6, 4))


def edited_states(plan, table, into, out):
    copy = bytearray(plan)
    copy[32 * table + 4], copy[32 * table + 36] = into, out
    return bytes(copy)


# ---- 23: soundness, on two stations that share a table, and a record that nothing reaches

SMALL = [
    head_record(1),
    station_record(2, 0, 3, key(0)),
    station_record(0, 7, 3, key(1)),
    interface_record(4, 7, 6),
    interface_record(0, 9, 3),
    bytes([0, 99, 0, 0, 0, 99]) + bytes(25) + b"\xff",
]
SMALL_PLAN = b"".join(SMALL)
SMALL_PATH = built([[Hop(0, 7, 0, key(0)), Hop(7, 0, 0, key(1))]], [1])


def sizes():
    path, plan = SMALL_PATH, SMALL_PLAN
    passed("two stations share a table", path, plan)
    passed("no record behind", path, plan[:160])
    passed("2,048 records", path, plan.ljust(65536, b"\0"))
    refused(23, "2,049 records", path, plan.ljust(65568, b"\0"))
    refused(23, "a byte more", path, plan + b"\0")
    refused(23, "a byte less", path, plan[:191])
    refused(23, "no record", path, b"")
    refused(23, "31 bytes", path, bytes(31))
    refused(23, "no station", path, bytes(32))


def indices():
    path, plan = SMALL_PATH, SMALL_PLAN
    for count in 6, 7, 0xFFFF:
        high, low = count.to_bytes(2, "big")
        places = (0, 0, "first station"), (2, 0, "next station"), (2, 4, "first interface"), (4, 0, "next interface")
        for index, at, name in places:
            refused(23, f"{name} {count} of 6", path, edited(plan, in_record(index, at, high, low)))
    refused(23, "next station is its own", path, edited(plan, in_record(1, 1, 1)))
    refused(23, "last station's next is its own", path, edited(plan, in_record(2, 1, 2)))
    refused(23, "next interface is its own", path, edited(plan, in_record(3, 1, 3)))
    refused(23, "last interface's next is its own", path, edited(plan, in_record(4, 1, 4)))
    downward = [head_record(2), station_record(0, 7, 0, key(1)), station_record(1, 0, 3, key(0))]
    refused(23, "next station below", path, b"".join(downward + SMALL[3:]))
    downward = [interface_record(0, 9, 3), interface_record(3, 7, 6)]
    stations = [head_record(1), station_record(2, 0, 4, key(0)), station_record(0, 7, 0, key(1))]
    refused(23, "next interface below", path, b"".join(stations + downward))
    before = [head_record(3), interface_record(2, 7, 6), interface_record(0, 9, 3)]
    behind = [station_record(4, 0, 1, key(0)), station_record(0, 7, 1, key(1))]
    passed("a table before its stations", path, b"".join(before + behind))
    passed("a table's end is another table", path, edited(plan, in_record(2, 5, 4)))


def zeros():
    path, plan = SMALL_PATH, SMALL_PLAN
    for at in 2, 3, 31:
        refused(23, f"head, byte {at}", path, edited(plan, in_record(0, at, 1)))
    for station in 1, 2:
        for at in 6, 7, 24, 31:
            refused(23, f"station in record {station}, byte {at}", path, edited(plan, in_record(station, at, 1)))
    for interface in 3, 4:
        for at in 5, 6, 31:
            label = f"interface in record {interface}, byte {at}"
            refused(23, label, path, edited(plan, in_record(interface, at, 1)))
    passed("other bytes where nothing reaches", path, edited(plan, in_record(5, 6, 1, 2, 3)))


def reached_both_ways():
    """A station with key 0 and no table looks like an interface record, state 0."""
    no_key = bytes(16)
    path = built([[Hop(0, 5, 0, key(0)), Hop(7, 0, 0, no_key)]], [1])

    def plan_with(following):
        table = interface_record(following, 5, 6)
        return b"".join([head_record(2), table, station_record(3, 0, 1, key(0)), station_record(0, 7, 0, no_key)])

    refused(23, "a station in the table of the one before", path, plan_with(3))
    passed("no station in a table", path, plan_with(0))
    path = built([[Hop(0, 5, 0, key(0)), Hop(7, 5, 0, key(1)), Hop(8, 0, 0, no_key)]], [1])

    def longer_with(first, second):
        tables = [interface_record(first, 5, 6), interface_record(second, 5, 6)]
        stations = [station_record(4, 0, 1, key(0)), station_record(5, 7, 2, key(1)), station_record(0, 8, 0, no_key)]
        return b"".join([head_record(3)] + tables + stations)

    passed("three stations, none in a table", path, longer_with(0, 0))
    refused(23, "the third station in the first one's table", path, longer_with(5, 0))
    refused(23, "the third station in the second one's table", path, longer_with(0, 5))
    refused(23, "the third station in both tables", path, longer_with(5, 5))
    # first interface 1024 is state 4 and a zero byte
    path = built([[Hop(0, 5, 0, key(0)), Hop(7, 0, 0, no_key)]], [1])
    records = [head_record(1), station_record(1024, 0, 2, key(0)), interface_record(0, 5, 6)]
    own = b"".join(records).ljust(32 * 1024, b"\0") + station_record(0, 7, 1024, no_key)
    refused(23, "a station in its own table", path, own)
    passed("record 1024 without a table", path, edited(own, in_record(1024, 4, 0)))


# ---- 23: tables, stations, arrivals, readings


def tables():
    path, plan = SMALL_PATH, SMALL_PLAN
    refused(23, "equal numbers", path, edited(plan, in_record(4, 3, 7)))
    refused(23, "numbers not ascending", path, edited(plan, in_record(4, 3, 6)))
    passed("a number above 255", path, edited(plan, in_record(4, 2, 1)))
    refused(23, "state 8", path, edited(plan, in_record(3, 4, 8)))
    refused(23, "state 8 in the last entry", path, edited(plan, in_record(4, 4, 8)))
    passed("state 7", path, edited(plan, in_record(4, 4, 7)))
    last = SMALL[:2] + [station_record(0, 7, 5, key(1))] + SMALL[3:5] + [interface_record(0, 7, 8)]
    refused(23, "state 8 in the last station's table", path, b"".join(last))
    records = [interface_record(at + 4, at + 7, 6) for at in range(256)] + [interface_record(0, 263, 6)]
    most = b"".join(SMALL[:3] + records)
    refused(23, "257 entries", path, most)
    passed("256 entries", path, edited(most, in_record(258, 0, 0, 0)))
    refused(23, "257 entries in the last table", path, edited(most, in_record(1, 5, 4)))
    fewer = edited(most, in_record(1, 5, 4), in_record(2, 5, 4))
    passed("the last 256 of them", built([[Hop(0, 263, 0, key(0)), Hop(7, 0, 0, key(1))]], [1]), fewer)


def station_counts():
    path, plan = built(ONE, [1]), PLANS[0]
    refused(23, "a station less", path, edited(plan, in_record(2, 1, 0)))
    refused(23, "a station more", path, itinerary_of(stations_for([4])))
    refused(23, "first arrival 1", path, edited(plan, in_record(1, 3, 1)))
    refused(23, "second arrival 0", path, edited(plan, in_record(2, 3, 0)))
    refused(23, "last arrival 0", path, edited(plan, in_record(3, 3, 0)))
    passed("last arrival above 255", *high_arrival())
    refused(23, "earliest above latest", path, plan, 1001, 1000)
    passed("earliest is latest", path, plan, 1001, 1001)
    path, plan = built(THREE, [0, 0, 1]), PLANS[2]
    refused(23, "three segments, a station less", path, edited(plan, in_record(4, 1, 0)))
    refused(23, "three segments, a station more", path, itinerary_of(stations_for([6])))
    refused(23, "(0,0,0), no station", bytes(4), bytes(32))
    refused(23, "(0,0,0), no record", bytes(4), b"")
    refused(23, "(0,0,0), first station 1 of 1", bytes(4), head_record(1))
    refused(23, "(0,0,0), two stations", bytes(4), itinerary_of(stations_for([2])))


def high_arrival():
    """An arrival whose low byte is 0."""
    path = built(with_hop(ONE, 0, 2, ingress=256), [1])
    return path, edited(PLANS[0], in_record(3, 2, 1, 0))


# ---- 2, 3, 4, 24, 25, and their order


def headers():
    path, plan = SMALL_PATH, SMALL_PLAN
    refused(2, "no byte", b"", plan)
    refused(2, "3 bytes", path[:3], plan)
    refused(3, "4 bytes", path[:4], plan)
    refused(3, "35 bytes of 36", path[:35], plan)
    passed("12 bytes behind the header", path + bytes([255] * 12), plan)
    refused(2, "3 bytes, no record", path[:3], b"")
    refused(3, "35 bytes of 36, no record", path[:35], b"")
    refused(24, "CurrHF 1", edited(path, (0, b"\1")), plan)
    refused(24, "CurrHF 32", edited(path, (0, b"\x20")), plan)
    refused(24, "CurrINF 1", edited(path, (0, b"\x40")), plan)
    refused(24, "CurrINF 2", edited(path, (0, b"\x80")), plan)
    long = step_model.meta(0, 0, 22, 21, 22).ljust(808, b"\0")
    refused(4, "65 hops", long, plan)
    refused(3, "65 hops, 807 bytes", long[:807], plan)
    refused(4, "65 hops, no record", long, b"")


def alerts():
    path, plan = built(ONE, [0]), PLANS[0]
    for hop, which in enumerate(["first", "second", "last"]):
        for bits in 1, 2, 3:
            refused(25, f"{which} hop, alert bits {bits}", edited(path, (12 + 12 * hop, bytes([bits]))), plan)
        passed(f"{which} hop, flags fc", edited(path, (12 + 12 * hop, b"\xfc")), plan)
    path, plan = built(hops_of([2, 2]), [1, 1], lengths=[2, 0, 2]), itinerary_of(stations_for([2, 2]))
    refused(25, "(2,0,2), alert on the last hop", edited(path, (56, b"\1")), plan)
    path = edited(path, (2, b"\0\x82"))
    refused(25, "(0,2,2), alert on the first hop", edited(path, (20, b"\2")), plan)
    path, plan = built(THREE, [1, 1, 1]), PLANS[2]
    refused(25, "three segments, alert on the last hop", edited(path, (len(path) - 12, b"\2")), plan)


def free_bits():
    path, plan = built(THREE, [1, 0, 1]), PLANS[2]
    passed("reserved bits of the meta word", edited(path, (1, b"\xfc")), plan)
    passed("peering and unnamed bits", edited(path, (4, b"\xff\xff"), (12, b"\xfe\xff")), plan)


def order():
    path, plan = SMALL_PATH, SMALL_PLAN
    unfit = edited(plan, in_record(0, 2, 1))
    moved, alert = edited(path, (0, b"\1")), edited(path, (12, b"\1"))
    refused(23, "unfit and not at the start", moved, unfit)
    refused(23, "unfit and an alert", alert, unfit)
    refused(23, "readings and not at the start", moved, plan, 1338, 1337)
    refused(24, "not at the start and an alert", edited(moved, (12, b"\1")), plan)
    refused(24, "not at the start and expired", moved, plan, 1000, 1338)
    refused(25, "an alert and expired", alert, plan, 1000, 1338)
    refused(25, "an alert and a wrong MAC", edited(alert, (35, b"\0")), plan)
    refused(24, "(0,0,0), CurrHF 1", b"\1\0\0\0", itinerary_of(stations_for([1])))


def put_cases():
    random.seed(1)
    mixes()
    short_lengths()
    empty_segments()
    longest()
    clock_readings()
    clock_readings_by_segment()
    last_second()
    macs()
    chains()
    macs_of_three()
    ingresses()
    leaving_interfaces()
    joint_ingresses()
    joint_tables()
    link_pairs()
    sizes()
    indices()
    zeros()
    reached_both_ways()
    tables()
    station_counts()
    headers()
    alerts()
    free_bits()
    order()
