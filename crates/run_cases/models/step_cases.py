"""The cases of the step, its halves, `try_reverse`, `expiration` and `calculate_segment_index`: each refusal and each action."""
import script
import step as model
from step import RFC_4493, meta, path_of, segment

# ---- the calls


def answer_of(made, with_scmp):
    try:
        return script.numbered(made())
    except model.No as no:
        return " ".join(map(str, no.args)) + (model.scmp(*no.args) if with_scmp else "")


def put_step(name, label, path, made, ids, states, interface, time, ignore_macs):
    before, model.KEY = bytes(path), RFC_4493
    answer = answer_of(lambda: made(path, ids, states, interface, time, ignore_macs), True)
    script.put_table(ids, states, RFC_4493)
    script.call(name, label, before, path, answer, interface, time, ignore_macs)


def put_other(name, label, path, made, *numbers):
    before = bytes(path)
    answer = answer_of(lambda: made(path, *numbers), False)
    script.call(name, label, before, path, answer, *numbers)


IDS, STATES = [1, 2, 3], [6, 6, 5]


def ingress_at(label, path, ids, states, interface, time, ignore_macs=False):
    def made(*given):
        return model.go_in(*given)[0]

    put_step("ingress", label, path, made, ids, states, interface, time, ignore_macs)


def egress_at(label, path, ids, states, interface, time, ignore_macs=False):
    put_step("egress", label, path, model.go_out, ids, states, interface, time, ignore_macs)


def step_at(label, path, ids, states, interface, time, ignore_macs=False):
    put_step("step", label, path, model.go_through, ids, states, interface, time, ignore_macs)


def ingress(label, path, interface, time):
    ingress_at(label, path, IDS, STATES, interface, time)


def egress(label, path, interface, time):
    egress_at(label, path, IDS, STATES, interface, time)


def step(label, path, interface, time):
    step_at(label, path, IDS, STATES, interface, time)


def reverse(label, path):
    put_other("reverse", label, path, model.turn_around)


def expiration(label, path):
    put_other("expiration", label, path, model.expiration_of)


def index(label, path, hop):
    put_other("index", label, path, model.segment_of, hop)


# ---- paths

model.KEY = RFC_4493
DOWN_HOPS = [(0, 1), (3, 1), (3, 0)]
DOWN = path_of(meta(0, 1, 3, 0, 0), segment(1, 0x1234, 1000, 0, DOWN_HOPS, 1))
DOWN_START = path_of(meta(0, 0, 3, 0, 0), segment(1, 0x1234, 1000, 0, DOWN_HOPS))
UP = path_of(meta(0, 1, 3, 0, 0), segment(0, 0x4321, 1000, 0, [(3, 0), (0, 1), (0, 1)]))
UP_DOWN = path_of(
    meta(0, 1, 2, 2, 0),
    segment(0, 0x5678, 1000, 1, [(3, 0), (0, 1)]),
    segment(1, 0x9ABC, 1100, 0, [(0, 2), (3, 0)]),
)
ONE_HOP = path_of(
    meta(0, 1, 2, 1, 1),
    segment(0, 0x5678, 1000, 0, [(3, 0), (0, 0)]),
    segment(1, 0x9ABC, 1000, 0, [(4, 2)]),
    segment(1, 0xDEF0, 1000, 0, [(4, 2)]),
)


def altered(path, **bytes_at):
    """A copy with bytes set: at24=2 sets byte 24 to 2."""
    path = bytearray(path)
    for at, byte in bytes_at.items():
        assert path[int(at[2:])] != byte
        path[int(at[2:])] = byte
    return path


def with_meta(path, *first):
    return bytearray(meta(*first) + path[4:])


# ---- the cases


def refused_table(label, ids, states):
    path = altered(DOWN)
    ingress_at(label, path, ids, states, 3, 1337)
    egress_at(label, path, ids, states, 1, 1337)
    step_at(label, path, ids, states, 3, 1337)


def tables():
    refused_table("state 8", [1, 2, 3], [6, 6, 8])
    refused_table("equal numbers", [1, 1, 3], [6, 6, 5])
    refused_table("numbers not ascending", [1, 3, 2], [6, 5, 6])
    refused_table("more numbers than states", [1, 2, 3], [6, 6])
    refused_table("more states than numbers", [1, 3], [6, 5, 6])
    refused_table("257 entries", list(range(257)), [6] * 257)
    step_at("256 entries", altered(DOWN), list(range(256)), [6] * 256, 3, 1337)
    step_at("unsound table, 3 bytes", DOWN[:3], [1, 1, 3], [6, 6, 5], 3, 1337)


def every_call(label, path):
    ingress(label, path, 3, 1337)
    egress(label, path, 1, 1337)
    step(label, path, 3, 1337)
    reverse(label, path)
    expiration(label, path)


def headers():
    every_call("3 bytes", DOWN[:3])
    every_call("47 bytes", DOWN[:47])
    every_call("(0,0,0)", bytearray(4))
    long = bytearray(meta(2, 63, 22, 21, 22) + bytes(804))
    every_call("65 hops", long)
    step("65 hops, 807 bytes", long[:807], 3, 1337)
    long = bytearray(meta(2, 63, 22, 21, 21) + bytes(792))
    step_at("64 hops", long, IDS, STATES, 0, 337, True)
    egress("64 hops", long, 0, 337)
    reverse("64 hops", long)


def refused_place(label, path):
    ingress(label, path, 1, 1337)
    step(label, path, 1, 1337)


def ingress_places():
    refused_place("CurrHF 3 of 3 hops", altered(DOWN, at0=3))
    refused_place("(1,0,0)", with_meta(DOWN, 0, 0, 1, 0, 0))
    refused_place("(1,0,0), CurrINF 1", with_meta(DOWN, 1, 0, 1, 0, 0))
    refused_place("CurrINF 1 in segment 0", altered(DOWN, at0=0x41))
    refused_place("(2,0,2), CurrHF 2, CurrINF 2", with_meta(UP_DOWN, 2, 2, 2, 0, 2))
    refused_place("(0,2,2), CurrHF 1, CurrINF 1, wrong MAC", with_meta(UP_DOWN, 1, 1, 0, 2, 2))


def egress_places():
    egress("CurrHF 3 of 3 hops", altered(DOWN, at0=3), 1, 1337)
    egress("CurrINF 1 in segment 0", altered(DOWN, at0=0x41), 1, 1337)
    egress("(2,0,2), CurrHF 2, CurrINF 2", with_meta(UP_DOWN, 2, 2, 2, 0, 2), 2, 1337)
    egress("last hop", altered(DOWN, at0=2), 0, 1337)
    egress("(1,0,0)", with_meta(DOWN, 0, 0, 1, 0, 0), 1, 1337)
    egress("segment end", altered(UP_DOWN), 0, 1337)


def empty_and_short_segments():
    ingress("(2,0,2)", with_meta(UP_DOWN, 0, 1, 2, 0, 2), 1, 1337)
    step("(2,0,2)", with_meta(UP_DOWN, 0, 1, 2, 0, 2), 1, 1337)
    ingress("(2,1,0)", with_meta(UP_DOWN, 0, 1, 2, 1, 0), 1, 1337)
    step("(2,1,0)", with_meta(UP_DOWN, 0, 1, 2, 1, 0), 1, 1337)
    ingress_at("(2,1,1)", altered(ONE_HOP), [0, 2], [6, 6], 4, 1337)
    step_at("(2,1,1)", altered(ONE_HOP), [0, 2], [6, 6], 4, 1337)


def arrival(label, path, interface, time):
    ingress(label, altered(path), interface, time)
    step(label, altered(path), interface, time)


def arrivals():
    alert = altered(UP, at24=1)
    arrival("wrong interface", alert, 3, 1337)
    arrival("future timestamp", alert, 1, 999)
    arrival("expired", alert, 1, 1338)
    arrival("wrong MAC", altered(alert, at35=0), 1, 1337)
    arrival("in the timestamp's second", DOWN, 3, 1000)
    arrival("in the last second", DOWN, 3, 1337)


def change(label, path, interface, time):
    ingress(label, altered(path), interface, time)
    step(label, altered(path), interface, time)


def change_at(label, path, ids, states):
    ingress_at(label, altered(path), ids, states, 1, 1337)
    step_at(label, altered(path), ids, states, 1, 1337)


def changes_first_hop():
    alert = altered(UP_DOWN, at32=1)
    change("first hop, wrong interface", alert, 3, 1337)
    change("first hop, future timestamp", alert, 1, 999)
    change("first hop, expired", alert, 1, 1676)
    change("first hop, wrong MAC", altered(alert, at43=0), 1, 1337)


def changes_between():
    change("first hop's egress alert", altered(UP_DOWN, at32=2), 1, 1337)
    change("second hop's ingress alert", altered(UP_DOWN, at44=2), 1, 1337)
    alert = altered(UP_DOWN, at32=1)
    change_at("ingress not listed", alert, [2, 3], [6, 5])
    change_at("egress not listed", alert, [1, 3], [6, 5])
    change_at("parent to child", alert, [1, 2], [5, 6])


def change_from_cons_dir():
    path = altered(UP_DOWN, at4=1)
    ingress_at("C set, ingress not listed", altered(path), IDS, STATES, 1, 1337, True)
    step_at("C set, ingress not listed", altered(path), IDS, STATES, 1, 1337, True)


def changes_second_hop():
    alert = altered(UP_DOWN, at32=1)
    one_hop = altered(ONE_HOP, at40=1)
    ingress_at("second hop, wrong interface", altered(one_hop), [0, 2], [6, 6], 5, 1337)
    step_at("second hop, wrong interface", altered(one_hop), [0, 2], [6, 6], 5, 1337)
    change("second hop, future timestamp", alert, 1, 1099)
    change("second hop, expired", alert, 1, 1438)
    change("second hop, wrong MAC", altered(alert, at55=0), 1, 1337)


def changes_made():
    change("second hop's last second", UP_DOWN, 1, 1437)
    change("first hop's ingress alert", altered(UP_DOWN, at32=1), 1, 1337)
    change("second hop's egress alert", altered(UP_DOWN, at44=1), 1, 1337)
    change_at("link in is down", UP_DOWN, [1, 2], [2, 6])
    change_at("link out is down", UP_DOWN, [1, 2], [6, 2])


def link_pair(label, states):
    step_at(label, altered(UP_DOWN), [1, 2], states, 1, 1337)


def link_pairs():
    link_pair("core to core", [4, 4])
    link_pair("core to child", [4, 6])
    link_pair("core to peer", [4, 7])
    link_pair("parent to parent", [5, 5])
    link_pair("child to core", [6, 4])
    link_pair("child to parent", [6, 5])
    link_pair("child to child", [6, 6])
    link_pair("child to peer", [6, 7])
    link_pair("peer to core", [7, 4])
    link_pair("peer to child", [7, 6])
    link_pair("peer to peer", [7, 7])


def leaving():
    step_at("leaving, not listed", altered(DOWN), [2, 3], [6, 5], 3, 1337)
    step_at("leaving, down", altered(DOWN), [1, 3], [2, 5], 3, 1337)
    step_at("leaving by 0, not listed", altered(UP), [1, 2], [6, 6], 1, 1337)
    step_at("leaving by 0, down", altered(UP), [0, 1], [2, 6], 1, 1337)
    step_at("leaving by 0, up", altered(UP), [0, 1], [6, 6], 1, 1337)


def departures():
    alert = altered(DOWN, at24=1)
    egress("wrong interface", altered(alert), 2, 1337)
    egress("wrong interface, expired", altered(alert), 2, 1338)
    egress("future timestamp", altered(alert), 1, 999)
    egress("expired", altered(alert), 1, 1338)
    egress("alert", altered(alert), 1, 1337)
    egress("wrong MAC", altered(alert, at35=0), 1, 1337)
    egress("in the last second", altered(DOWN), 1, 1337)


def halves(label, given):
    path = altered(UP, at24=2)
    ingress(label, path, 1, 1337)
    egress(label, path, given, 1337)


def departures_against_construction():
    halves("C clear, wrong interface", 3)
    halves("C clear, alert, egress 0", 0)


def journey():
    path = altered(UP_DOWN, at0=0)
    step("from local hosts", path, 0, 1337)
    step("segment change", path, 1, 1337)
    step("last hop", path, 3, 1337)


def forwarded():
    path = altered(DOWN)
    ingress("forwarded", path, 3, 1337)
    egress("forwarded", path, 1, 1337)
    ingress("delivered", path, 3, 1337)
    path[36] = 2
    step("alert, last hop", path, 3, 1337)


def alerts():
    step("ingress alert", altered(DOWN, at24=2), 3, 1337)
    step("egress alert", altered(DOWN, at24=1), 3, 1337)
    step("both alerts", altered(DOWN, at24=3), 3, 1337)
    step("alert, ingress 0", altered(DOWN_START, at12=2), 2, 1337)
    step("alert, local hosts", altered(DOWN_START, at12=2), 0, 1337)


def beta_steps():
    step("C clear, local hosts", altered(UP, at0=0), 0, 1337)
    step("C clear, ingress 0", altered(UP, at0=0), 2, 1337)


def ignored_macs():
    wrong = altered(DOWN, at35=0)
    ingress_at("MACs ignored", altered(wrong), IDS, STATES, 3, 1337, True)
    egress_at("MACs ignored", altered(wrong), IDS, STATES, 1, 1337, True)
    step_at("MACs ignored", altered(wrong), IDS, STATES, 3, 1337, True)
    step_at("MACs ignored, expired", altered(wrong), IDS, STATES, 3, 1338, True)


def tails():
    path = with_meta(DOWN_START, 0, 0, 2, 0, 0)
    ingress("12 bytes behind the header", path, 0, 1337)
    egress("12 bytes behind the header", path, 1, 1337)
    step("12 bytes behind the header", path, 3, 1337)
    reverse("12 bytes behind the header", path)


def kept_bits():
    path = altered(DOWN, at1=0xFC, at4=0xFD, at5=0xFF, at24=0xFF, at36=0xFC)
    step("reserved bits", path, 3, 1337)
    egress("reserved bits", path, 1, 1337)
    reverse("reserved bits", path)


def reversals():
    path = altered(UP_DOWN)
    reverse("(2,2,0)", path)
    reverse("and back", path)
    reverse("(2,1,1)", altered(ONE_HOP))
    reverse("(2,0,2)", with_meta(UP_DOWN, 0, 1, 2, 0, 2))
    reverse("(2,1,0)", with_meta(UP_DOWN, 1, 2, 2, 1, 0))


def refused_reversals():
    reverse("(0,2,2)", with_meta(UP_DOWN, 1, 1, 0, 2, 2))
    reverse("(2,1,1), CurrHF 4, CurrINF 3", altered(ONE_HOP, at0=0xC4))
    reverse("(2,1,0), CurrINF 2", with_meta(UP_DOWN, 2, 1, 2, 1, 0))
    reverse("(2,0,2), CurrINF 1", with_meta(UP_DOWN, 1, 1, 2, 0, 2))


def expirations():
    expiration("(3,0,0)", altered(DOWN))
    expiration("(2,2,0)", altered(UP_DOWN))
    expiration("(2,0,2)", with_meta(UP_DOWN, 0, 1, 2, 0, 2))
    expiration("(0,2,2)", with_meta(UP_DOWN, 1, 1, 0, 2, 2))
    expiration("ExpTime 255", altered(DOWN, at13=255, at25=255, at37=255))
    expiration("timestamp 4294967000", altered(DOWN, at8=0xFF, at9=0xFF, at10=0xFE, at11=0xD8))


def indices():
    for name, path in ("(3,0,0)", DOWN), ("(2,2,0)", UP_DOWN), ("(2,1,1)", ONE_HOP), ("(2,0,2)", with_meta(UP_DOWN, 0, 1, 2, 0, 2)):
        for hop in range(6):
            index(f"{name}, hop {hop}", altered(path), hop)
    index("(0,2,2), hop 0", with_meta(UP_DOWN, 1, 1, 0, 2, 2), 0)
    index("(0,0,0), hop 0", bytearray(4), 0)
    index("64 hops, hop 63", bytearray(meta(2, 63, 22, 21, 21) + bytes(792)), 63)
    index("64 hops, hop 255", bytearray(meta(2, 63, 22, 21, 21) + bytes(792)), 255)


def put_cases():
    tables()
    headers()
    ingress_places()
    egress_places()
    empty_and_short_segments()
    arrivals()
    changes_first_hop()
    changes_between()
    change_from_cons_dir()
    changes_second_hop()
    changes_made()
    link_pairs()
    leaving()
    departures()
    departures_against_construction()
    journey()
    forwarded()
    alerts()
    beta_steps()
    ignored_macs()
    tails()
    kept_bits()
    reversals()
    refused_reversals()
    expirations()
    indices()
