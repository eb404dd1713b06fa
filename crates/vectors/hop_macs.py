"""Prints the lines of `stdout` that no document has: the hop MACs, and the steps of their chaining.

The MAC input is laid out here by hand, and the CMAC is that of the package `cryptography`.
"""
from cryptography.hazmat.primitives.ciphers.algorithms import AES
from cryptography.hazmat.primitives.cmac import CMAC

KEY = bytes.fromhex("2b7e151628aed2a6abf7158809cf4f3c")
KEY_C = bytes(range(16))


def hop_mac(key, segment_id, timestamp, exp_time, cons_ingress, cons_egress):
    data = bytes(2)
    data += segment_id.to_bytes(2, "big")
    data += timestamp.to_bytes(4, "big")
    data += bytes(1)
    data += exp_time.to_bytes(1, "big")
    data += cons_ingress.to_bytes(2, "big")
    data += cons_egress.to_bytes(2, "big")
    data += bytes(2)
    cmac = CMAC(AES(key))
    cmac.update(data)
    return cmac.finalize()[:6]


HOP_MACS = [
    ("all zeros", bytes(16), 0, 0, 0, 0, 0),
    ("all ones", bytes([0xFF] * 16), 0xFFFF, 0xFFFFFFFF, 0xFF, 0xFFFF, 0xFFFF),
    ("a SegID", KEY, 0x1234, 0, 0, 0, 0),
    ("a timestamp", KEY, 0, 0x12345678, 0, 0, 0),
    ("an ExpTime", KEY, 0, 0, 0x12, 0, 0),
    ("a ConsIngress", KEY, 0, 0, 0, 0x1234, 0),
    ("a ConsEgress", KEY, 0, 0, 0, 0, 0x1234),
    ("every field", KEY_C, 0x8A5F, 1700000000, 63, 41, 258),
]

for name, *inputs in HOP_MACS:
    mac = hop_mac(*inputs).hex()
    print("hop MAC of", name, mac)
    print("hop MAC of", name, "with schedule", mac)

for mac in ["abcd01020304", "000000000000", "ffffffffffff"]:
    print("SegID 1234 after MAC", mac, format(0x1234 ^ int(mac[:4], 16), "04x"))
