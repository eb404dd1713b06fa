"""Prints for each of some wrong checks how many cases tell it from the right one, and the first of them."""
import sys

sys.dont_write_bytecode = True
import journey as model
import journey_cases


def unasked(*_):
    return True


def is_next_at_least_own(itinerary, index):
    following = model.u16(model.record(itinerary, index), 0)
    return following == 0 or following >= index


def are_used_hops_quiet(header):
    return model.are_quiet(header, sum(header.lengths[: header.used]))


def has_enough_stations(stations, header, edition):
    return len(stations) >= model.station_count(header, edition)


# the function of journey.py that is wrong, and what stands for it
WRONG = {
    "passes all": ("passes", unasked),
    "passes none": ("passes", lambda *_: False),
    "first length not asked": ("is_first_used", unasked),
    "a length behind an empty one allowed": ("are_used_together", unasked),
    "one-hop segments allowed": ("are_long_enough", unasked),
    "timestamp against latest": ("does_timestamp_fit", lambda timestamp, earliest, latest: timestamp <= latest),
    "timestamp strict": ("does_timestamp_fit", lambda timestamp, earliest, latest: timestamp < earliest),
    "timestamp not asked": ("does_timestamp_fit", unasked),
    "expiry against earliest": ("does_expiry_fit", lambda expiry, earliest, latest: expiry >= earliest),
    "expiry strict": ("does_expiry_fit", lambda expiry, earliest, latest: expiry > latest),
    "expiry not asked": ("does_expiry_fit", unasked),
    "MAC not asked": ("does_mac_fit", unasked),
    "C set, one head more": ("chained_macs", lambda macs, at, c: macs[: at + 1] if c else macs[1 : at + 1]),
    "C set, one head less": ("chained_macs", lambda macs, at, c: macs[: max(at - 1, 0)] if c else macs[1 : at + 1]),
    "C set, without the first": ("chained_macs", lambda macs, at, c: macs[1:at] if c else macs[1 : at + 1]),
    "C clear, one head more": ("chained_macs", lambda macs, at, c: macs[:at] if c else macs[1 : at + 2]),
    "C clear, one head less": ("chained_macs", lambda macs, at, c: macs[:at] if c else macs[1:at]),
    "C clear, with the first": ("chained_macs", lambda macs, at, c: macs[:at] if c else macs[: at + 1]),
    "no chain": ("chained_macs", lambda macs, at, c: []),
    "ingress not asked": ("does_ingress_fit", unasked),
    "ingress 0 refused": ("does_ingress_fit", lambda ingress, arrival: ingress == arrival),
    "second hop's ingress not asked": ("does_next_ingress_fit", unasked),
    "leaving listed, not asked up": ("leaves_by_up", lambda table, egress: egress in dict(table)),
    "leaving not asked": ("leaves_by_up", unasked),
    "change, ingress not asked listed": ("is_listed", unasked),
    "change, ingress asked up": ("is_listed", lambda table, ingress: dict(table).get(ingress, 0) >= 4),
    "link pair not asked": ("is_pair_allowed", unasked),
    "rule dropped: a multiple of 32": ("is_multiple", unasked),
    # no case can tell: without a record there is no station, and the count is at least 1
    "rule dropped: some record": ("has_record", unasked),
    "rule dropped: 2,048 records at most": ("has_few_records", unasked),
    "2,047 records at most": ("has_few_records", lambda itinerary: len(itinerary) // 32 < 2048),
    "rule dropped: an index below the count": ("is_index_sound", unasked),
    "index up to the count": ("is_index_sound", lambda itinerary, index: index <= len(itinerary) // 32),
    "rule dropped: a next above its own": ("is_next_sound", unasked),
    "next may be its own": ("is_next_sound", is_next_at_least_own),
    "rule dropped: zeros of record 0": ("are_head_zeros_sound", unasked),
    "rule dropped: zeros of a station": ("are_station_zeros_sound", unasked),
    "rule dropped: zeros of an interface record": ("are_interface_zeros_sound", unasked),
    "rule dropped: reached one way": ("is_reached_one_way", unasked),
    "tables not asked": ("is_table_sound", unasked),
    "more stations allowed": ("has_station_count", has_enough_stations),
    "first arrival not asked": ("is_first_arrival_sound", unasked),
    "later arrivals not asked": ("are_later_arrivals_sound", unasked),
    "order of the readings not asked": ("are_readings_sound", unasked),
    "CurrHF not asked": ("is_at_start", lambda header: header.curr_inf == 0),
    "CurrINF not asked": ("is_at_start", lambda header: header.curr_hf == 0),
    "alerts not asked": ("is_unalerted", unasked),
    "alerts asked of the used hops": ("is_unalerted", are_used_hops_quiet),
    "one alert bit not asked": ("is_unalerted", lambda header: model.are_quiet(header, header.hops, 2)),
    "the other not asked": ("is_unalerted", lambda header: model.are_quiet(header, header.hops, 1)),
}


def main():
    journey_cases.put_cases()
    for name, (function, wrong) in WRONG.items():
        right, told = getattr(model, function), []
        setattr(model, function, wrong)
        for (label, *given), answer in zip(journey_cases.CASES, journey_cases.ANSWERS):
            if answer != model.verdict(model.passes, *given):
                told.append(label)
        setattr(model, function, right)
        print(f"{name}: {len(told)} of {len(journey_cases.CASES)}" + (f", first '{told[0]}'" if told else ""))


if __name__ == "__main__":
    main()
