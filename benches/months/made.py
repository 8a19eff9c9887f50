#!/usr/bin/env python3
"""The month that `pbs make` writes, worked out from docs/FORMATS.md and none of the crates.

    made.py NUMBER MEMBERS PAIRINGS          prints its eight files, each under its name
    made.py NUMBER MEMBERS PAIRINGS FOLDER   compares them with those that lie in the folder
    made.py COUNT                            compares so many months with those that the built program makes

The texts that the test `months_are_made` of engine_tests compares with were printed by it. The variable PROGRAM of the
environment names another program.
"""
import os
import pathlib
import random
import subprocess
import sys
import tempfile

TOP = pathlib.Path(__file__).resolve().parents[2]
PROGRAM = os.environ.get("PROGRAM", str(TOP / "crates/roster_cli/out/roster_cli"))

STATIONS = ["ORD", "DEN", "SEA", "BOS"]
EVENTS = "member,kind,report,parked,release,legs,credit\n"


class Draws:
    """Numbers that follow from a number."""

    def __init__(self, number):
        self.state = number

    def below(self, bound):
        self.state = (self.state * 6364136223846793005 + 1442695040888963407) % 2**64
        return self.state // 2**33 % bound


def clock(minutes):
    return f"{minutes // 60:02}:{minutes % 60:02}"


def moment(day, minutes):
    """A minute of a day of June, which may lie in a later day."""
    day, minutes = day + minutes // 1440, minutes % 1440
    return f"2026-06-{day:02}T{clock(minutes)}Z"


def duties_of(draws, count, first):
    """Day, report, parked and release of each duty, in minutes of that day."""
    duties = []
    for day in range(first, first + count):
        report = 420 + 30 * draws.below(5)
        parked = report + 300 + 60 * draws.below(3)
        duties.append((day, report, parked, parked + 30))
    return duties


def legs_of(duties, number, station):
    """From, to, out and in of the legs of a duty."""
    day, report, parked, _ = duties[number]
    if len(duties) == 1:
        return [
            ("DUB", station, report + 60, report + 120),
            (station, "DUB", report + 180, parked - 30),
        ]
    begins = "DUB" if number == 0 else station
    ends = "DUB" if number == len(duties) - 1 else station
    return [(begins, ends, report + 60, parked - 30)]


def pairings_of(draws, members, pairings):
    """The three files of pairings, duties and legs."""
    texts = {
        "pairings.csv": "pairing,need,credit\n",
        "duties.csv": "pairing,no,report,parked,release,layover\n",
        "legs.csv": "pairing,no,from,to,out,in\n",
    }
    for i in range(pairings):
        count = 1 + draws.below(3)
        late = draws.below(2)
        station = STATIONS[draws.below(4)]
        duties = duties_of(draws, count, 5 * (i // members % 6) + 1 + late)
        credit = 270 * count + draws.below(30)
        texts["pairings.csv"] += f"P{i + 1},1,{credit // 60}:{credit % 60:02}\n"
        for number, (day, report, parked, release) in enumerate(duties):
            times = ",".join(moment(day, minute) for minute in (report, parked, release))
            layover = station if number + 1 < count else ""
            texts["duties.csv"] += f"P{i + 1},{number + 1},{times},{layover}\n"
            for begins, ends, out, landed in legs_of(duties, number, station):
                texts["legs.csv"] += (
                    f"P{i + 1},{number + 1},{begins},{ends},{moment(day, out)},{moment(day, landed)}\n"
                )
    return texts


def wish_of(draws, kind, pairings):
    if kind == 0:
        return f"fly P{1 + draws.below(pairings)}"
    if kind == 1:
        return f"off 2026-06-{1 + draws.below(30):02}"
    if kind == 2:
        return f"avoid layover {STATIONS[draws.below(4)]}"
    return f"prefer 1 days {1 + draws.below(3)}"


def bids_of(draws, members, pairings):
    text = ""
    for member in range(1, members + 1):
        text += f"member M{member}\n"
        for _ in range(3):
            weight = 1 + draws.below(20)
            kind = draws.below(4)
            if kind == 0 and pairings == 0:
                kind = 1
            text += f"{weight} {wish_of(draws, kind, pairings)}\n"
    return text


def month(number, members, pairings):
    draws = Draws(number)
    trips = pairings_of(draws, members, pairings)
    crew = "member,low,high\n" + "".join(f"M{m},0:00,90:00\n" for m in range(1, members + 1))
    return {
        "rules.toml": 'base = "DUB"\nseat = "FO"\nyear = 2026\nmonth = 6\noffset = 0\ndays_off = 10\n',
        **trips,
        "crew.csv": crew,
        "history.csv": EVENTS,
        "fixed.csv": EVENTS,
        "bids.txt": bids_of(draws, members, pairings),
    }


def differing(sizes, folder):
    """The files of the folder that are not those of the month."""
    return [name for name, text in month(*sizes).items() if pathlib.Path(folder, name).read_bytes() != text.encode()]


def compare(count):
    """Months of drawn numbers, of few and of many members and pairings."""
    pick, differ = random.Random(1), 0
    for _ in range(count):
        most = pick.choice([(3, 6), (20, 60), (200, 600)])
        sizes = pick.randrange(2 ** pick.choice([8, 64])), pick.randint(1, most[0]), pick.randint(0, most[1])
        with tempfile.TemporaryDirectory() as folder:
            run = subprocess.run([PROGRAM, folder, "make", *map(str, sizes)], capture_output=True, text=True)
            said = f"made {sizes[1]} members {sizes[2]} pairings\n"
            if (run.returncode, run.stdout) != (0, said) or differing(sizes, folder):
                differ += 1
                print(f"make {sizes}: {run.stdout!r}, {differing(sizes, folder)}")
    print(f"{count} months compared, {differ} differed")
    return 1 if differ else 0


def main(words):
    if len(words) == 1:
        return compare(int(words[0]))
    sizes = [int(word) for word in words[:3]]
    if len(words) == 3:
        for name, text in month(*sizes).items():
            print(f"== {name}\n{text}", end="")
        return 0
    differ = differing(sizes, words[3])
    print(f"{len(differ)} of 8 files differ", *differ)
    return 1 if differ else 0


if __name__ == "__main__":
    sys.exit(main(sys.argv[1:]))
