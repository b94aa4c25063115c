"""Runs cases of every call of include/vrt49.h and holds the answers against the
reference.

    python3 tools/compare/cases.py [--seed N] [--few] [--only CALL [NUMBER]] -- DRIVE ..

DRIVE is the command that runs drive.c's program.  Each call's cases are made in
lots of 500, each from the seed, the call's name and the lot's number alone, so
that a case is the same however many processes make them (JOBS, 2 if not set).
--few makes one lot of 100 for each call; --only runs one call, or prints one case
of it.  The first difference ends the program with status 1; so does, where all
calls run in full, a buffer that no case hands over without entries.
"""

import os
import random
import re
import subprocess
import sys
from array import array
from collections import Counter
from multiprocessing import Pool
from pathlib import Path

sys.dont_write_bytecode = True
sys.path.insert(0, str(Path(__file__).resolve().parent.parent / "reference"))

import vrt49
from calls import CALLS, CONTENTS_FOLLOW, PLACED, Buffer
from edges import edges

assert sys.byteorder == "little"

SEED = 4900
LOT = 500
WHICH = {call.name: place for place, call in enumerate(CALLS)}
HEADER = (Path(__file__).resolve().parent.parent.parent / "include/vrt49.h").read_text()


# The words that drive.c reads and writes.


def whole_words(entries):
    """The bytes of entries, filled up with zeros to whole words."""
    made = entries.tobytes()
    return made + bytes(-len(made) % 4)


def asked(call, case):
    """The words of one case."""
    made = [array("I", [WHICH[call.name]]).tobytes()]
    for letter, lent in zip(call.takes, case.lent):
        if letter == "w":
            made.append(array("I", [lent]).tobytes())
        elif letter == "q":
            made.append(array("Q", [lent]).tobytes())
        else:
            made.append(array("I", [len(lent.entries), lent.place]).tobytes())
            if lent.place == CONTENTS_FOLLOW:
                made.append(whole_words(lent.entries))
    return b"".join(made)


def written(call, case):
    """The places of the buffers that the call writes, among what it is lent."""
    return [place for place, letter in enumerate(call.takes) if letter.isupper()]


def expected(call, case):
    """The words of the answer to one case."""
    made = [array("I", [case.number]).tobytes()]
    for place in written(call, case):
        made.append(whole_words(case.after.get(place, case.lent[place].entries)))
    return b"".join(made)


# Buffers of no entries, which drive.c hands over as null.


def buffers(call):
    """The buffers among what a call is lent, by their places: their names.  In the
    header a buffer is a pointer and its number of entries."""
    listed = " ".join(re.search(rf"\n\w+ {call.name}\(([^)]*)\);", HEADER).group(1).split())
    lent = re.sub(r"\*(\w+), size_t \w+", r"[] \1", listed).split(", ")
    assert len(lent) == len(call.takes), (call, lent)
    return {place: one.split("[] ")[1] for place, one in enumerate(lent) if "[] " in one}


def without_entries(call, cases):
    """The places of the buffers that have no entries in one of the cases."""
    return {place for place in buffers(call) for case in cases if not case.lent[place].entries}


def never_empty(call, seen):
    """The names of the buffers whose places are not among those seen without entries."""
    return [name for place, name in buffers(call).items() if place not in seen]


# The refusals of calls that say where: calls.refused_at puts them into one number.


def told(answer):
    """The number, the place and the bit of an answer."""
    return answer & 255, answer >> 16, answer >> 8 & 255


def never_broken(call, answers):
    """The fields with a rule for which no case of a call that says where has FIELD."""
    broken = {bit for number, _, bit in map(told, answers) if number == vrt49.FIELD}
    return sorted(set(vrt49.FIELD_RULES) - broken) if call.name in PLACED else []


# What a difference looks like.


def in_words(answer):
    number, place, bit = told(answer)
    return f"{number}" + f", place {place}, bit {bit}" * (answer > 255)


def shown(lent):
    if not isinstance(lent, Buffer):
        return f"{lent} (0x{lent:x})"
    digits = 2 * lent.entries.itemsize
    front = " ".join(f"{entry:0{digits}x}" for entry in lent.entries[:200])
    return f"{len(lent.entries)} entries: {front}{' ..' if len(lent.entries) > 200 else ''}"


def difference(call, case, number, given):
    """The lines for a case whose answer is not the expected one."""
    lines = [f"{call.name}, case {number}:"]
    lines += [f"  lent {shown(lent)}" for lent in case.lent]
    answered = array("I", given[:4])[0]
    lines.append(f"  the reference answers {in_words(case.number)}; the library {in_words(answered)}")
    at = 4
    for place in written(call, case):
        before = case.lent[place].entries
        wanted = case.after.get(place, before)
        had = array(before.typecode, given[at : at + len(before) * before.itemsize])
        at += len(whole_words(before))
        for entry, (one, other) in enumerate(zip(wanted, had)):
            if one != other:
                lines.append(
                    f"  lent {place + 1}, entry {entry}: the reference has 0x{one:x}, "
                    f"the library 0x{other:x}, before it was 0x{before[entry]:x}"
                )
                break
    return "\n".join(lines)


# Lots of cases.


def made_lot(call, seed, lot, size):
    """The first cases of one lot."""
    r = random.Random(f"{seed} {call.name} {lot}")
    return [call.make(r) for _ in range(size)]


def run_cases(call, cases, first, drive):
    """None, or the lines of the first difference."""
    answer = subprocess.run(
        [*drive, str(first)], input=b"".join(asked(call, case) for case in cases), capture_output=True
    )
    at = 0
    for place, case in enumerate(cases):
        wanted = expected(call, case)
        given = answer.stdout[at : at + len(wanted)]
        at += len(wanted)
        if given != wanted:
            if len(given) == len(wanted):
                return difference(call, case, first + place, given)
            break
    if answer.returncode != 0 or at != len(answer.stdout):
        said = answer.stderr.decode(errors="replace").strip()
        return said or f"{call.name}, case {first + place}: drive ended with {answer.returncode}"
    return None


def run_lot(job):
    name, seed, lot, size, drive = job
    call = CALLS[WHICH[name]]
    if lot == "edges":
        # with numbers after all others
        cases, first = edges(call.name), call.cases
    else:
        cases, first = made_lot(call, seed, lot, size), lot * LOT
    try:
        wrong = run_cases(call, cases, first, drive)
    except OSError as problem:
        wrong = str(problem)
    return name, Counter(case.number for case in cases), without_entries(call, cases), wrong


def options(words):
    """The seed, whether few, what only, and the command."""
    seed, few, only, drive = SEED, False, None, None
    words = list(words)
    while words:
        word = words.pop(0)
        if word == "--seed":
            seed = int(words.pop(0))
        elif word == "--few":
            few = True
        elif word == "--only":
            only = [words.pop(0)]
            if words[0] != "--":
                only.append(int(words.pop(0)))
        elif word == "--":
            drive, words = words, []
        else:
            sys.exit(__doc__)
    if not drive:
        sys.exit(__doc__)
    return seed, few, only, drive


def one_case(seed, name, number, drive):
    """Prints one case and what the library answers to it."""
    call = CALLS[WHICH[name]]
    if number < call.cases:
        case = made_lot(call, seed, number // LOT, LOT)[number % LOT]
    else:
        case = edges(name)[number - call.cases]
    answer = subprocess.run([*drive, str(number)], input=asked(call, case), stdout=subprocess.PIPE)
    if answer.stdout:
        print(difference(call, case, number, answer.stdout))


def main():
    seed, few, only, drive = options(sys.argv[1:])
    if only and len(only) == 2:
        return one_case(seed, *only, drive)
    calls = [call for call in CALLS if not only or call.name == only[0]]
    jobs = [(call.name, seed, "edges", 0, drive) for call in calls if not few]
    for call in calls:
        lots = 1 if few else call.cases // LOT
        jobs += [(call.name, seed, lot, 100 if few else LOT, drive) for lot in range(lots)]
    print(f"seed {seed}", flush=True)
    counted = {call.name: Counter() for call in calls}
    empty = {call.name: set() for call in calls}
    with Pool(int(os.environ.get("JOBS", "2"))) as pool:
        for name, counts, places, wrong in pool.imap(run_lot, jobs):
            if wrong:
                pool.terminate()
                print(wrong, flush=True)
                sys.exit(1)
            counted[name] += counts
            empty[name] |= places
    for call in calls:
        answers, numbers = counted[call.name], Counter()
        for answer, times in answers.items():
            numbers[told(answer)[0]] += times
        listed = " ".join(f"{number}:{times}" for number, times in sorted(numbers.items()))
        places = f", of {len(answers)} numbers with their places" if call.name in PLACED else ""
        print(f"{call.name} {sum(numbers.values())} cases{places}, answers {listed}")
        absent = [number for number in call.occur if not numbers[number]]
        if absent and not few:
            print(f"{call.name}: no case has the answer {absent}")
            sys.exit(1)
        kept = never_broken(call, answers)
        if kept and not few:
            print(f"{call.name}: no case has FIELD of {kept}")
            sys.exit(1)
        filled = never_empty(call, empty[call.name])
        if filled and not few and not only:
            print(f"{call.name}: no case has no entries in {', '.join(filled)}")
            sys.exit(1)
    print(f"{sum(sum(counts.values()) for counts in counted.values())} cases, no difference")


if __name__ == "__main__":
    main()
