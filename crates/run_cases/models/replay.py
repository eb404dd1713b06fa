"""The calls of ../replay/list, with the answers that the published Rust gave."""
import pathlib

import script

LIST = pathlib.Path(__file__).parent.parent / "replay" / "list"


def octets(word):
    return bytes.fromhex("" if word == "-" else word)


def spaced(word):
    return "" if word == "-" else " " + word.replace(",", " ")


def put_cases():
    for line, text in enumerate(LIST.read_text().splitlines(), 1):
        name, *given, path, number, values, scmp, left = text.split(" ")
        path, answer = octets(path), number + spaced(values)
        if scmp != "-":
            answer += f", SCMP{spaced(scmp)}"
        numbers = {}
        if given:
            ids, states, interface, time, key, ignore_macs = given
            script.put_table(map(int, spaced(ids).split()), octets(states), bytes.fromhex(key))
            numbers = {"first": int(interface), "second": int(time), "ignore_macs": ignore_macs == "1"}
        script.call(name, f"line {line}", path, path if left == "=" else octets(left), answer, **numbers)
