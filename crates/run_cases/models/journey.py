"""A model of the journey check, written from the scope's text, with two ways to a verdict.

`passes` is the list of conditions of a pass. `travels` drives the journey with the step of step.py.
Both take the edition, the first if none is given.
"""
import random
from collections import namedtuple

import step as step_model
from step import ALLOWED, Header, No, ask

Station = namedtuple("Station", "arrival key table")


def hop_mac(key, *fields):
    step_model.KEY = key
    return step_model.hop_mac(*fields)


# ---- Journey check (added): the itinerary


def u16(octets, at):
    """A byte past the end counts as 0: a wrong check may look there."""
    return int.from_bytes(octets[at : at + 2].ljust(2, b"\0"), "big")


def record(itinerary, index):
    return itinerary[32 * index : 32 * index + 32].ljust(32, b"\0")


def chain(itinerary, index):
    """The records from one on. It stops where a wrong check might not."""
    records = []
    while index != 0 and index not in records:
        records.append(index)
        index = u16(record(itinerary, index), 0)
    return records


def stations_reached(itinerary):
    return chain(itinerary, u16(itinerary, 0))


def interfaces_reached(itinerary, station):
    return chain(itinerary, u16(record(itinerary, station), 4))


def is_multiple(itinerary):
    return len(itinerary) % 32 == 0


def has_record(itinerary):
    return len(itinerary) // 32 >= 1


def has_few_records(itinerary):
    return len(itinerary) // 32 <= 2048


def is_index_sound(itinerary, index):
    return index < len(itinerary) // 32


def is_next_sound(itinerary, index):
    following = u16(record(itinerary, index), 0)
    return following == 0 or following > index


def are_head_zeros_sound(itinerary):
    return not any(record(itinerary, 0)[2:])


def are_station_zeros_sound(itinerary, station):
    return not any(record(itinerary, station)[6:8] + record(itinerary, station)[24:])


def are_interface_zeros_sound(itinerary, interface):
    return not any(record(itinerary, interface)[5:])


def is_reached_one_way(stations, interfaces):
    return not set(stations) & set(interfaces)


def is_itinerary_sound(itinerary):
    stations = stations_reached(itinerary)
    interfaces = [index for station in stations for index in interfaces_reached(itinerary, station)]
    return (
        is_multiple(itinerary)
        and has_record(itinerary)
        and has_few_records(itinerary)
        and all(is_index_sound(itinerary, index) for index in stations + interfaces)
        and all(is_next_sound(itinerary, index) for index in stations + interfaces)
        and are_head_zeros_sound(itinerary)
        and all(are_station_zeros_sound(itinerary, index) for index in stations)
        and all(are_interface_zeros_sound(itinerary, index) for index in interfaces)
        and is_reached_one_way(stations, interfaces)
    )


def read_station(itinerary, station):
    records = [record(itinerary, index) for index in interfaces_reached(itinerary, station)]
    table = [(u16(interface, 2), interface[4]) for interface in records]
    return Station(u16(record(itinerary, station), 2), record(itinerary, station)[8:24], table)


# ---- Questions in order: Journey


def is_table_sound(table):
    return step_model.is_sound([number for number, _ in table], [state for _, state in table])


def station_count(header, edition):
    return header.hops if step_model.is_peering_path(header, edition) else header.hops - header.infos + 1


def has_station_count(stations, header, edition=1):
    return len(stations) == station_count(header, edition)


def is_first_arrival_sound(stations):
    return all(station.arrival == 0 for station in stations[:1])


def are_later_arrivals_sound(stations):
    return all(station.arrival != 0 for station in stations[1:])


def are_readings_sound(earliest, latest):
    return earliest <= latest


def is_at_start(header):
    return header.curr_hf == 0 and header.curr_inf == 0


def are_quiet(header, hops, bits=3):
    return all(header.path[header.hop_at(hop)] & bits == 0 for hop in range(hops))


def is_unalerted(header):
    return are_quiet(header, header.hops)


def ask_journey(path, itinerary, earliest, latest, edition):
    """The stations, if every question is answered yes."""
    header = step_model.ask_header(path)
    stations = [read_station(itinerary, station) for station in stations_reached(itinerary)]
    ask(is_itinerary_sound(itinerary), 23)
    ask(all(is_table_sound(station.table) for station in stations), 23)
    ask(has_station_count(stations, header, edition), 23)
    ask(is_first_arrival_sound(stations) and are_later_arrivals_sound(stations), 23)
    ask(are_readings_sound(earliest, latest), 23)
    ask(is_at_start(header), 24)
    ask(is_unalerted(header), 25)
    return stations


# ---- Journey check (added): Passed exactly if


def is_first_used(lengths):
    return lengths[0] != 0


def are_used_together(lengths):
    return all(length == 0 for length in lengths[(lengths + [0]).index(0) :])


def are_long_enough(lengths):
    return all(length >= 2 for length in lengths[: (lengths + [0]).index(0)])


def does_timestamp_fit(timestamp, earliest, latest):
    return timestamp <= earliest


def does_expiry_fit(expiry, earliest, latest):
    return expiry >= latest


def chained_macs(macs, place, cons_dir):
    """The MACs of a segment whose heads go into the SegID of the hop at this place."""
    return macs[:place] if cons_dir else macs[1 : place + 1]


def mac_in_chain(header, hop, edition):
    """A peering hop's head is in no chain, and 0 changes none."""
    return bytes(6) if step_model.is_peering_hop(header, hop, edition) else header.mac(hop)


def does_mac_fit(header, info, hops, place, key, edition):
    segment_id = header.segment_id(info)
    for mac in chained_macs([mac_in_chain(header, hop, edition) for hop in hops], place, header.cons_dir(info)):
        segment_id ^= u16(mac, 0)
    hop = hops[place]
    fields = header.timestamp(info), header.exp_time(hop), header.cons_ingress(hop), header.cons_egress(hop)
    return hop_mac(key, segment_id, *fields) == header.mac(hop)


def does_ingress_fit(ingress, arrival):
    return ingress in (0, arrival)


def does_next_ingress_fit(ingress, arrival):
    return does_ingress_fit(ingress, arrival)


def leaves_by_up(table, egress):
    return dict(table).get(egress, 0) >= 4


def is_listed(table, ingress):
    return ingress in dict(table)


def is_pair_allowed(table, into, out):
    return (dict(table).get(into, 0) % 4, dict(table).get(out, 0) % 4) in ALLOWED


def are_lengths_sound(header, edition):
    lengths = header.lengths
    is_peering = step_model.is_peering_path(header, edition)
    return is_first_used(lengths) and are_used_together(lengths) and (is_peering or are_long_enough(lengths))


def is_peering_sound(header, edition):
    return step_model.is_peering_sound(header, edition)


def is_joint(header, info, place, edition):
    """Whether the hop is the second of a segment change."""
    return place == 0 and info != 0 and not step_model.is_peering_path(header, edition)


def leaves(header, hop, place, length, edition):
    return place + 1 != length or step_model.is_first_peering_hop(header, hop, edition)


def passes(stations, path, earliest, latest, edition):
    header = Header(path)
    if not (are_lengths_sound(header, edition) and is_peering_sound(header, edition)):
        return False
    fits, hop, at = [], 0, 0
    used = [(info, length) for info, length in enumerate(n for n in header.lengths if n != 0)]
    for info, length in used:
        hops = range(hop, hop + length)
        fits.append(does_timestamp_fit(header.timestamp(info), earliest, latest))
        for place, hop in enumerate(hops):
            station = stations[at]
            ingress, egress = header.travel_ingress(hop, info), header.travel_egress(hop, info)
            fits.append(does_expiry_fit(header.expiry(hop, info), earliest, latest))
            fits.append(does_mac_fit(header, info, hops, place, station.key, edition))
            if is_joint(header, info, place, edition):
                before = header.travel_ingress(hop - 1, info - 1)
                fits.append(does_next_ingress_fit(ingress, station.arrival))
                fits.append(is_listed(station.table, before))
                fits.append(is_pair_allowed(station.table, before, egress))
            elif at != 0:
                fits.append(does_ingress_fit(ingress, station.arrival))
            if leaves(header, hop, place, length, edition):
                fits.append(leaves_by_up(station.table, egress))
                at += 1
        hop += 1
    return all(fits)


# ---- The journey, written out


def arrives(stations, path, readings, edition):
    path = bytearray(path)
    for at, (station, reading) in enumerate(zip(stations, readings)):
        step_model.KEY = station.key
        ids, states = [number for number, _ in station.table], [state for _, state in station.table]
        try:
            answer = step_model.go_through(path, ids, states, station.arrival, reading, False, edition)
        except No:
            return False
        last = at + 1 == len(stations)
        if not (answer == "ForwardLocal" if last else answer.startswith("ForwardNextHop ")):
            return False
    return True


def travels(stations, path, earliest, latest, edition):
    lists = [[earliest] * len(stations), [latest] * len(stations)]
    lists += [[random.randint(earliest, latest) for _ in stations] for _ in range(8)]
    return all(arrives(stations, path, readings, edition) for readings in lists)


# ---- the verdict, by `passes` or by `travels`


def verdict(does_pass, path, itinerary, earliest, latest, edition=1):
    try:
        stations = ask_journey(path, itinerary, earliest, latest, edition)
    except No as no:
        return f"refused {no.args[0]}"
    return "passed" if does_pass(stations, path, earliest, latest, edition) else "not passed"
