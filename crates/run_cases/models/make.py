"""Writes ../stdin and ../stdout. With the word `check` it writes nothing, and says whether they are what it would write.

The answers are those of the models beside this file, written from the papers, and for ../replay/list those of the published Rust.
"""
import pathlib
import sys

sys.dont_write_bytecode = True
import journey_cases
import peering_cases
import replay
import script
import step_cases

FOLDER = pathlib.Path(__file__).parent.parent
LISTS = {
    "the step: step_cases.py": step_cases,
    "the journey check: journey_cases.py": journey_cases,
    "both editions: peering_cases.py": peering_cases,
    "what the published Rust gave: ../replay/list": replay,
}

for title, cases in LISTS.items():
    before = len(script.LINES)
    script.begin(title)
    cases.put_cases()
    print(f"{title}, {len(script.LINES) - before} calls")
unlike = 0
for name, lines in ("stdin", script.SCRIPT), ("stdout", script.LINES):
    file, text = FOLDER / name, "".join(f"{line}\n" for line in lines)
    if sys.argv[1:] != ["check"]:
        file.write_text(text)
    elif file.read_text() != text:
        unlike += 1
        print(f"{name} is not what this writes")
sys.exit(unlike != 0)
