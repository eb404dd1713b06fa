"""Tries each line of mutations.tsv: a wrong change to a copy of the published Rust, which the check must report.

    python3 mutate.py              the check is a part of the differential run that the tests make
    python3 mutate.py COMMAND      another check, run by the shell; it must fail. SCION_SDK_SRC names the changed copy

A line has, between tabs: the file's last names, which occurrence of the old text is meant, the old text, the new text.
A check that does not end fails, as a wrong change may make a loop endless. The copy is removed at the end, also after a signal.
"""
import os
import shutil
import signal
import subprocess
import sys
from pathlib import Path

HERE = Path(__file__).resolve().parent
SOURCE = HERE.parent / os.environ.get("SCION_SDK_SRC", "../shared/docs/src")
COPY = HERE / "target/mutation/src"
COMPARE = "target/mutation/checked/beside 100000 1 64 5000"
BUILD = "cargo build --quiet --offline --locked --profile checked --target-dir target/mutation"
LIMIT = 1800
SIGNALS = [signal.SIGHUP, signal.SIGINT, signal.SIGTERM]


def end(number, _):
    for each in SIGNALS:
        signal.signal(each, signal.SIG_IGN)
    sys.exit(128 + number)


def succeeds(command):
    """Runs a command in a group of its own, which ends with this program and after LIMIT seconds."""
    environment = os.environ | {"SCION_SDK_SRC": str(COPY), "RUSTFLAGS": "-Awarnings"}
    shell = ["bash", "-o", "pipefail", "-c", command]
    none = subprocess.DEVNULL
    process = subprocess.Popen(shell, cwd=HERE, env=environment, stdin=none, stdout=none, stderr=none, start_new_session=True)
    try:
        return process.wait(LIMIT) == 0
    except subprocess.TimeoutExpired:
        return False
    finally:
        if process.poll() is None:
            os.killpg(process.pid, signal.SIGKILL)
            process.wait()


def replace(text, occurrence, old, new):
    parts = text.split(old)
    if len(parts) <= occurrence:
        raise ValueError(f"not found: {old}")
    return old.join(parts[:occurrence]) + new + old.join(parts[occurrence:])


def try_change(check, name, occurrence, old, new):
    (file,) = [file for file in COPY.rglob("*.rs") if str(file).endswith("/" + name)]
    text = file.read_text()
    file.write_text(replace(text, int(occurrence), old, new))
    try:
        if not succeeds(BUILD):
            return "DOES NOT COMPILE"
        return "MISSED" if succeeds(check) else "reported"
    finally:
        file.write_text(text)


def try_all(check):
    # Without the files' times: cargo takes what is older than its last build, which was of a wrong change, for built.
    shutil.copytree(SOURCE, COPY, copy_function=shutil.copyfile)
    if not succeeds(BUILD) or not succeeds(check):
        sys.exit("the check fails on the unchanged Rust")
    lines = (HERE / "mutations.tsv").read_text().splitlines()
    outcomes = []
    for line in lines:
        name, occurrence, old, new = line.split("\t")
        outcomes.append(try_change(check, name, occurrence, old, new))
        print(f"{outcomes[-1]}: {name}: {old} -> {new}", flush=True)
    print(f"{outcomes.count('reported')} of {len(lines)} reported")
    sys.exit(outcomes.count("reported") != len(lines))


def main():
    for each in SIGNALS:
        # What is ignored from the start, as by nohup, stays so.
        if signal.getsignal(each) != signal.SIG_IGN:
            signal.signal(each, end)
    shutil.rmtree(COPY, ignore_errors=True)
    try:
        try_all(" ".join(sys.argv[1:]) or COMPARE)
    finally:
        shutil.rmtree(COPY, ignore_errors=True)


main()
