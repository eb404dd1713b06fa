"""A model of the step, its halves, `try_reverse`, `expiration` and `calculate_segment_index`, written from the scope's text.

With the CMAC of the package `cryptography`.
"""
from cryptography.hazmat.primitives.ciphers.algorithms import AES
from cryptography.hazmat.primitives.cmac import CMAC

RFC_4493 = bytes.fromhex("2b7e151628aed2a6abf7158809cf4f3c")
# the key that MACs are worked out with
KEY = RFC_4493

# ---- mac.rs


def hop_mac(segment_id, timestamp, exp_time, cons_ingress, cons_egress):
    cmac = CMAC(AES(KEY))
    cmac.update(bytes(2) + segment_id.to_bytes(2, "big") + timestamp.to_bytes(4, "big"))
    cmac.update(bytes(1) + bytes([exp_time]))
    cmac.update(cons_ingress.to_bytes(2, "big") + cons_egress.to_bytes(2, "big") + bytes(2))
    return cmac.finalize()[:6]


def beta_step(segment_id, mac):
    return segment_id ^ int.from_bytes(mac[:2], "big")


# ---- types.rs, layout.rs, view.rs


class Header:
    """The fields of a path, read and written in its bytes."""

    def __init__(self, path):
        self.path = path

    def number(self, at, size):
        return int.from_bytes(self.path[at : at + size], "big")

    def put(self, at, size, number):
        self.path[at : at + size] = number.to_bytes(size, "big")

    def bits(self, shift, count):
        return self.number(0, 4) >> shift & (1 << count) - 1

    def put_bits(self, shift, count, number):
        mask = (1 << count) - 1 << shift
        self.put(0, 4, self.number(0, 4) & ~mask | number << shift)

    curr_inf = property(lambda self: self.bits(30, 2), lambda self, to: self.put_bits(30, 2, to))
    curr_hf = property(lambda self: self.bits(24, 6), lambda self, to: self.put_bits(24, 6, to))

    @property
    def lengths(self):
        return [self.bits(12, 6), self.bits(6, 6), self.bits(0, 6)]

    @lengths.setter
    def lengths(self, lengths):
        for shift, length in zip((12, 6, 0), lengths):
            self.put_bits(shift, 6, length)

    @property
    def infos(self):
        return sum(length != 0 for length in self.lengths)

    @property
    def hops(self):
        return sum(self.lengths)

    @property
    def used(self):
        return (self.lengths + [0]).index(0)

    def segment(self, hop):
        """The place of a hop's segment among the three lengths, and the hop behind the segment."""
        end = 0
        for index, length in enumerate(self.lengths):
            end += length
            if hop < end:
                return index, end
        raise IndexError

    def info_at(self, info):
        return 4 + 8 * info

    def hop_at(self, hop):
        return 4 + 8 * self.infos + 12 * hop

    def cons_dir(self, info):
        return self.path[self.info_at(info)] & 1

    def peering(self, info):
        return self.path[self.info_at(info)] & 2

    def segment_id(self, info):
        return self.number(self.info_at(info) + 2, 2)

    def timestamp(self, info):
        return self.number(self.info_at(info) + 4, 4)

    def exp_time(self, hop):
        return self.path[self.hop_at(hop) + 1]

    def cons_ingress(self, hop):
        return self.number(self.hop_at(hop) + 2, 2)

    def cons_egress(self, hop):
        return self.number(self.hop_at(hop) + 4, 2)

    def mac(self, hop):
        return bytes(self.path[self.hop_at(hop) + 6 : self.hop_at(hop) + 12])

    def travel_ingress(self, hop, info):
        return self.cons_ingress(hop) if self.cons_dir(info) else self.cons_egress(hop)

    def travel_egress(self, hop, info):
        return self.cons_egress(hop) if self.cons_dir(info) else self.cons_ingress(hop)

    # bit 0 is the ConsEgress alert, bit 1 the ConsIngress alert
    def ingress_alert_bit(self, info):
        return 2 if self.cons_dir(info) else 1

    def egress_alert_bit(self, info):
        return 1 if self.cons_dir(info) else 2

    def alert(self, hop, bit):
        return self.path[self.hop_at(hop)] & bit != 0

    def clear_alert(self, hop, bit):
        self.path[self.hop_at(hop)] &= ~bit

    def expiry(self, hop, info):
        return min(self.timestamp(info) + (self.exp_time(hop) + 1) * 675 // 2, 4294967295)

    def take_beta_step(self, hop, info):
        stepped = beta_step(self.segment_id(info), self.mac(hop))
        self.put(self.info_at(info) + 2, 2, stepped)

    def expected_mac(self, hop, info):
        return hop_mac(
            self.segment_id(info),
            self.timestamp(info),
            self.exp_time(hop),
            self.cons_ingress(hop),
            self.cons_egress(hop),
        )


class No(Exception):
    """A question answered no: its number, and the values that it carries."""


def ask(yes, *number_and_values):
    if not yes:
        raise No(*number_and_values)


# ---- Questions in order: before everything


def is_sound(ids, states):
    ascending = all(low < high for low, high in zip(ids, ids[1:]))
    return len(ids) == len(states) <= 256 and ascending and all(state < 8 for state in states)


def ask_header(path):
    ask(len(path) >= 4, 2)
    header = Header(path)
    ask(len(path) >= 4 + 8 * header.infos + 12 * header.hops, 3)
    ask(header.hops <= 64, 4)
    return header


def ask_before(path, ids, states):
    ask(is_sound(ids, states), 1)
    return ask_header(path)


# ---- a hop, and a segment change


def ask_hop(header, hop, info, time, ignore_macs):
    ask(header.timestamp(info) <= time, 10, hop)
    ask(header.expiry(hop, info) >= time, 11, hop)
    expected, found = header.expected_mac(hop, info), header.mac(hop)
    values = int.from_bytes(expected, "big"), int.from_bytes(found, "big")
    ask(ignore_macs or expected == found, 12, hop, *values)


def ask_arrival(header, hop, info, interface):
    found = header.travel_ingress(hop, info)
    fits = interface == 0 or found == 0 or found == interface
    ask(fits, 9, hop, interface, found, header.cons_dir(info))


CORE, PARENT, CHILD, PEER = range(4)
ALLOWED = [(CORE, CHILD), (CHILD, CORE), (CHILD, CHILD), (CHILD, PEER), (PEER, CHILD)]


def ask_change(header, hop, info, table):
    next_hop, next_info = hop + 1, info + 1
    cons_dir, next_cons_dir = header.cons_dir(info), header.cons_dir(next_info)
    ask(not header.alert(hop, header.egress_alert_bit(info)), 13, hop, cons_dir)
    ask(not header.alert(next_hop, header.ingress_alert_bit(next_info)), 13, hop, next_cons_dir)
    into, out = header.travel_ingress(hop, info), header.travel_egress(next_hop, next_info)
    ask(into in table, 14, hop, into, cons_dir)
    ask(out in table, 15, hop, out, next_cons_dir)
    ask((table[into] % 4, table[out] % 4) in ALLOWED, 16, hop)


# ---- the second edition (added): peering paths. In the first there is none


def is_peering_path(header, edition):
    two = [length != 0 for length in header.lengths] == [True, True, False]
    return edition == 2 and two and bool(header.peering(0) and header.peering(1))


def is_first_peering_hop(header, hop, edition):
    return is_peering_path(header, edition) and hop + 1 == header.lengths[0]


def is_second_peering_hop(header, hop, edition):
    return is_peering_path(header, edition) and hop == header.lengths[0]


def is_peering_hop(header, hop, edition):
    return is_first_peering_hop(header, hop, edition) or is_second_peering_hop(header, hop, edition)


def is_peering_sound(header, edition):
    """28's rule for P, of all info fields."""
    return edition == 1 or is_peering_path(header, edition) or not any(map(header.peering, range(header.infos)))


def ask_peering(header, info, edition):
    ask(is_peering_sound(header, edition), 28)


def is_long_enough(header, segment, edition):
    return header.lengths[segment] > 1 or is_peering_path(header, edition)


def changes_segment(header, hop, end, edition):
    return hop + 1 == end and hop + 1 != header.hops and not is_peering_hop(header, hop, edition)


def leaves_segment_end(header, hop, edition):
    return is_first_peering_hop(header, hop, edition)


def steps_at_ingress(header, hop, edition):
    return not is_peering_hop(header, hop, edition)


def steps_at_egress(header, hop, edition):
    return not is_peering_hop(header, hop, edition)


def moves_info_at_egress(header, hop, edition):
    return is_first_peering_hop(header, hop, edition)


# ---- the step: each half gives its answer as a text, and the interface to leave by if it goes on


def ask_info_fields(header, info, segment, change):
    ask(info < header.infos, 8, info)
    ask(not change or segment + 1 < header.infos, 8, segment + 1)


def ask_ingress(header, hop, info, change, table, interface, time, ignore_macs):
    ask_arrival(header, hop, info, interface)
    ask_hop(header, hop, info, time, ignore_macs)
    if change:
        ask_change(header, hop, info, table)
        ask_arrival(header, hop + 1, info + 1, interface)
        ask_hop(header, hop + 1, info + 1, time, ignore_macs)


def go_in(path, ids, states, interface, time, ignore_macs, edition=1):
    header = ask_before(path, ids, states)
    hop, info = header.curr_hf, header.curr_inf
    ask(hop < header.hops, 5, hop)
    segment, end = header.segment(hop)
    ask(is_long_enough(header, segment, edition), 6)
    ask(info == segment, 7, segment, info)
    last = hop + 1 == header.hops
    change = changes_segment(header, hop, end, edition)
    ask_info_fields(header, info, segment, change)
    ask_peering(header, info, edition)
    alert = header.alert(hop, header.ingress_alert_bit(info))
    if interface != 0 and not header.cons_dir(info) and steps_at_ingress(header, hop, edition):
        header.take_beta_step(hop, info)
    try:
        table = dict(zip(ids, states))
        ask_ingress(header, hop, info, change, table, interface, time, ignore_macs)
        arrived = header.travel_ingress(hop, info) == interface
    finally:
        # the move, whatever the checks say
        if interface != 0:
            header.clear_alert(hop, header.ingress_alert_bit(info))
        if change:
            header.curr_hf, header.curr_inf = hop + 1, segment + 1
    if alert and interface != 0 and arrived:
        return f"IngressSCMPHandleRequest {interface}", None
    if last:
        return "ForwardLocal", None
    out = header.travel_egress(header.curr_hf, header.curr_inf)
    return f"ContinueEgress {out}", out


def go_out(path, ids, states, interface, time, ignore_macs, edition=1):
    header = ask_before(path, ids, states)
    hop, info = header.curr_hf, header.curr_inf
    ask(hop < header.hops, 5, hop)
    segment, end = header.segment(hop)
    ask(info == segment, 7, segment, info)
    ask_info_fields(header, info, segment, False)
    ask_peering(header, info, edition)
    ask(hop + 1 < header.hops, 5, hop + 1)
    ask(hop + 1 < end or leaves_segment_end(header, hop, edition), 18)
    out = header.travel_egress(hop, info)
    alert = header.alert(hop, header.egress_alert_bit(info))
    try:
        ask(out == interface, 19, hop, interface, out, header.cons_dir(info))
        ask_hop(header, hop, info, time, ignore_macs)
    finally:
        # the move, whatever the checks say
        if header.cons_dir(info) and steps_at_egress(header, hop, edition):
            header.take_beta_step(hop, info)
        header.clear_alert(hop, header.egress_alert_bit(info))
        header.curr_hf = hop + 1
        if moves_info_at_egress(header, hop, edition):
            header.curr_inf = info + 1
    return f"EgressSCMPHandleRequest {out}" if alert and out != 0 else f"ForwardNextHop {out}"


def go_through(path, ids, states, interface, time, ignore_macs, edition=1):
    answer, out = go_in(path, ids, states, interface, time, ignore_macs, edition)
    if out is None:
        return answer
    header, table = Header(path), dict(zip(ids, states))
    ask(out in table, 15, header.curr_hf, out, header.cons_dir(header.curr_inf))
    ask(table[out] >= 4, 17, header.curr_hf, out)
    return go_out(path, ids, states, out, time, ignore_macs, edition)


def scmp(number, *values):
    """Type, code, and the pointer or the interface."""
    if number in (9, 14):
        return f", SCMP 4 {49 if values[-1] else 50} 0"
    if number in (15, 19):
        return f", SCMP 4 {50 if values[-1] else 49} 0"
    if number == 17:
        return f", SCMP 5 0 {values[1]}"
    codes = {10: 48, 11: 52, 12: 51, 13: 0, 16: 53}
    return f", SCMP 4 {codes[number]} 0" if number in codes else ""


# ---- expiration, try_reverse, calculate_segment_index


def expiration_of(path):
    header = ask_header(path)
    expiries = [header.expiry(hop, header.segment(hop)[0]) for hop in range(sum(header.lengths[: header.used]))]
    return f"At {min(expiries, default=0)}"


def turn_around(path):
    header = ask_header(path)
    hops, infos, used = header.hops, header.infos, header.used
    ask(header.lengths[0] != 0, 20)
    lengths = header.lengths
    header.lengths = lengths[:used][::-1] + lengths[used:]
    ask(header.curr_hf < hops, 21)
    ask(header.curr_inf < used, 22)
    header.curr_hf, header.curr_inf = hops - 1 - header.curr_hf, used - 1 - header.curr_inf
    for at, size, count in (4, 8, infos), (4 + 8 * infos, 12, hops):
        fields = [bytes(path[at + size * index : at + size * (index + 1)]) for index in range(count)]
        path[at : at + size * count] = b"".join(reversed(fields))
    for info in range(infos):
        path[header.info_at(info)] ^= 1
    return "Reversed"


def segment_of(path, hop):
    """The segment's place among the three lengths; whether the hop starts it; whether it ends it."""
    header = ask_header(path)
    ask(hop < header.hops, 5, hop)
    index, end = header.segment(hop)
    start = end - header.lengths[index]
    return f"Segment {index} {int(hop == start)} {int(hop + 1 == end)}"


# ---- paths


def segment(cons_dir, segment_id, timestamp, exp_time, hops, walked=0):
    """An info field with the SegID after so many beta steps, and hop fields with right MACs, in path order."""
    fields = []
    for cons_ingress, cons_egress in hops if cons_dir else hops[::-1]:
        mac = hop_mac(segment_id, timestamp, exp_time, cons_ingress, cons_egress)
        interfaces = cons_ingress.to_bytes(2, "big") + cons_egress.to_bytes(2, "big")
        fields.append((segment_id, bytes([0, exp_time]) + interfaces + mac))
        segment_id = beta_step(segment_id, mac)
    if not cons_dir:
        fields.reverse()
    info = bytes([cons_dir, 0]) + fields[walked][0].to_bytes(2, "big") + timestamp.to_bytes(4, "big")
    return info, [field for _, field in fields]


def meta(curr_inf, curr_hf, first, second, third):
    return (curr_inf << 30 | curr_hf << 24 | first << 12 | second << 6 | third).to_bytes(4, "big")


def path_of(first, *segments):
    fields = [info for info, _ in segments] + [hop for _, hops in segments for hop in hops]
    return bytearray(b"".join([first] + fields))
