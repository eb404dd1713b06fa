"""Reads the lines of `sample` and compares each with the model of crates/run_cases/models/step.py.

    cargo run --profile checked --bin sample 100000 100 | python3 cases/compare.py
"""
import pathlib
import sys

sys.dont_write_bytecode = True
sys.path.insert(0, str(pathlib.Path(__file__).parents[2] / "crates" / "run_cases" / "models"))
import step

STEPS = {
    "step": step.go_through,
    "ingress": lambda *inputs: step.go_in(*inputs)[0],
    "egress": step.go_out,
}
OTHERS = {"reverse": step.turn_around, "expiration": step.expiration_of}


def answer(call, path, *inputs):
    """As `sample` has it."""
    try:
        return STEPS[call](path, *inputs) if call in STEPS else OTHERS[call](path)
    except step.No as no:
        return "refused " + " ".join(map(str, no.args)) + (step.scmp(*no.args) if call in STEPS else "")


compared = differences = 0
for line in sys.stdin:
    call, path, ids, states, interface, time, key, ignore_macs, expected, left = line.rstrip("\n").split("\t")
    path = bytearray.fromhex(path)
    step.KEY = bytes.fromhex(key)
    inputs = list(map(int, ids.split())), list(map(int, states.split())), int(interface), int(time), ignore_macs == "1"
    found = answer(call, path, *inputs)
    compared += 1
    if (found, path.hex()) != (expected, left):
        differences += 1
        print(f"{line}the model: {found}, left {path.hex()}\n")
print(f"{compared} compared, {differences} differences")
sys.exit(differences != 0 or compared == 0)
