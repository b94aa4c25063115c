"""Holds the comparison to finding a spoilt answer.

    python3 tools/compare/test_cases.py DRIVE ..

For each call, and each way in which drive.c spoils one answer when BEND is set, the
first cases are run, or the edges, which have a refusal of every place; a difference must
be found every time, and none without BEND.
Where the cases of a call that leave one of its buffers without entries are taken away,
that buffer must be named; where those that have FIELD of a field are, that field.
"""

import os
import sys

sys.dont_write_bytecode = True

from cases import LOT, SEED, buffers, made_lot, never_broken, never_empty, run_cases, told, without_entries
from calls import CALLS, PLACED
from edges import edges

# What a call needs so that drive.c can spoil it so.
NEEDS = {
    1: lambda call: True,
    2: lambda call: any(letter.isupper() for letter in call.takes),
    3: lambda call: any(letter not in "wq" for letter in call.takes),
    4: lambda call: any(letter in "ilhb" for letter in call.takes),
    5: lambda call: any(letter.isupper() for letter in call.takes) and any(call.occur),
    6: lambda call: call.name in PLACED,
    7: lambda call: call.name in PLACED,
    8: lambda call: call.name == "vrt49_play_run",
}


def named(call):
    """How many buffers of a call are named when no case leaves them without entries."""
    cases = made_lot(call, SEED, 0, LOT)
    for place, name in buffers(call).items():
        filled = [case for case in cases if case.lent[place].entries]
        if name not in never_empty(call, without_entries(call, filled)):
            sys.exit(f"{call.name}: it is not noticed that {name} always has entries")
    if never_empty(call, set(buffers(call))):
        sys.exit(f"{call.name}: a buffer is named that has no entries")
    return len(buffers(call))


def kept(call):
    """How many fields are named when no case of a call breaks their rule."""
    answers = {case.number for case in edges(call.name)}
    broken = {bit for _, _, bit in map(told, answers)} - {0}
    for bit in broken:
        if bit not in never_broken(call, [one for one in answers if told(one)[2] != bit]):
            sys.exit(f"{call.name}: it is not noticed that no case has FIELD of {bit}")
    return len(broken)


def main():
    drive, noticed = sys.argv[1:], 0
    for call in CALLS:
        first = made_lot(call, SEED, 0, 100)
        for bend in (0, *NEEDS):
            if bend and not NEEDS[bend](call):
                continue
            cases = edges(call.name) if bend > 5 else first
            os.environ["BEND"] = str(bend)
            wrong = run_cases(call, cases, 0, drive)
            if bend == 0 and wrong:
                sys.exit(wrong)
            if bend and not wrong:
                sys.exit(f"{call.name}: BEND={bend} is not noticed")
            noticed += bend != 0
    always = sum(map(named, CALLS))
    fields = sum(kept(call) for call in CALLS if call.name in PLACED)
    what = f"{always} buffers that always have entries, {fields} fields that are never broken"
    print(f"the comparison itself: {noticed} spoilt answers, {what}, each noticed")


if __name__ == "__main__":
    main()
