"""Prints for each of some wrong second editions how many cases tell it from the right one, and the first of them.

Ends with status 1 if no case tells one of them.
"""
import sys

sys.dont_write_bytecode = True
import peering_cases
from peering_cases import model, step_model

ask_peering, ask_info_fields, ask_arrival = step_model.ask_peering, step_model.ask_info_fields, step_model.ask_arrival
go_in, go_out, steps = step_model.go_in, step_model.go_out, step_model.steps_at_ingress
is_first, is_second = step_model.is_first_peering_hop, step_model.is_second_peering_hop
mac_in_chain, leaves_by_up = model.mac_in_chain, model.leaves_by_up


def stepping_at(is_hop):
    return lambda header, hop, edition: steps(header, hop, edition) or is_hop(header, hop, edition)


def unasked(*_):
    return True


def ask_peering_too(header, info, segment, change):
    ask_peering(header, info, 2)
    ask_info_fields(header, info, segment, change)


def ask_peering_after(header, hop, info, interface):
    ask_arrival(header, hop, info, interface)
    ask_peering(header, info, 2)


def asked_after_arrival(path, *given):
    before = bytes(path)
    step_model.ask_peering = unasked
    try:
        return go_in(path, *given)
    except step_model.No as no:
        if no.args[0] == 28:
            path[:] = before
        raise
    finally:
        step_model.ask_peering = ask_peering


def ask_current_peering(header, info, edition):
    fits = step_model.is_peering_path(header, edition) or not header.peering(info)
    step_model.ask(edition == 1 or fits, 28)


def moved_on_success(path, *given):
    info = step_model.Header(path).curr_inf
    try:
        return go_out(path, *given)
    except step_model.No:
        step_model.Header(path).curr_inf = info
        raise


def has_by_segments(stations, header, edition):
    return len(stations) == header.hops - header.infos + 1


def chaining_peering_at(cons_dir):
    def mac(header, hop, edition):
        is_chained = header.cons_dir(header.segment(hop)[0]) == cons_dir
        return header.mac(hop) if is_chained else mac_in_chain(header, hop, edition)

    return mac


def starting_behind_peering(header, hop, edition):
    """The second segment's first MAC is that of the first hop that is no peering hop."""
    is_start = is_second(header, hop - 1, edition) and header.lengths[1] > 1 and not header.cons_dir(1)
    return bytes(6) if is_start else mac_in_chain(header, hop, edition)


# what is wrong: the functions that are, and what stands for them
WRONG = {
    "beta step at ingress of the first peering hop": {"steps_at_ingress": stepping_at(is_first)},
    "beta step at ingress of the second peering hop": {"steps_at_ingress": stepping_at(is_second)},
    "beta step at egress of the first peering hop": {"steps_at_egress": stepping_at(is_first)},
    "beta step at egress of the second peering hop": {"steps_at_egress": stepping_at(is_second)},
    "segment change at the first peering hop": {
        "changes_segment": lambda header, hop, end, edition: hop + 1 == end and hop + 1 != header.hops
    },
    "18 kept": {"leaves_segment_end": lambda header, hop, edition: False},
    "6 kept": {"is_long_enough": lambda header, segment, edition: header.lengths[segment] > 1},
    "28 before 8": {"ask_info_fields": ask_peering_too},
    "28 after 9": {"go_in": asked_after_arrival, "ask_arrival": ask_peering_after},
    "28 by the current info field": {"ask_peering": ask_current_peering},
    "28 not asked": {"ask_peering": unasked},
    "CurrINF not moved at egress": {"moves_info_at_egress": lambda header, hop, edition: False},
    "CurrINF moved on success only": {"go_out": moved_on_success},
    "check: peering head in the chain, C set": {"mac_in_chain": chaining_peering_at(1)},
    "check: peering head in the chain, C clear": {"mac_in_chain": chaining_peering_at(0)},
    "check: stations counted by segments": {"has_station_count": has_by_segments},
    "check: the first MAC is that of no peering hop": {"mac_in_chain": starting_behind_peering},
    "check: P not asked": {"is_peering_sound": unasked},
    "check: one-hop segments refused": {
        "are_lengths_sound": lambda header, edition: model.are_long_enough(header.lengths)
    },
    "check: link pair asked at a peering hop": {
        "is_joint": lambda header, info, place, edition: place == 0 and info != 0
    },
    "check: the peering link not asked up": {
        "leaves_by_up": lambda table, egress: leaves_by_up([(n, s | 4) for n, s in table], egress)
    },
}


def answer(name, path, *given):
    """In the second edition, with the bytes left; a wrong journey's by its conditions."""
    try:
        if name == "journey":
            return peering_cases.model_journey(model.passes, path, *given, 2), path
        return peering_cases.model_call(name, path, *given, 2)
    except IndexError:
        return "no answer"


def told_by(functions):
    right = {}
    for function, wrong in functions.items():
        module = model if hasattr(model, function) else step_model
        right[function] = module, getattr(module, function)
        setattr(module, function, wrong)
    told = []
    for (name, label, *given), known in zip(peering_cases.CASES, peering_cases.ANSWERS):
        if answer(name, *given) != known:
            told.append(f"{name}, {label}")
    for function, (module, known) in right.items():
        setattr(module, function, known)
    return told


def main():
    peering_cases.put_cases()
    untold = 0
    for name, functions in WRONG.items():
        told = told_by(functions)
        untold += not told
        print(f"{name}: {len(told)} of {len(peering_cases.CASES)}" + (f", first '{told[0]}'" if told else ""))
    sys.exit(untold != 0)


if __name__ == "__main__":
    main()
