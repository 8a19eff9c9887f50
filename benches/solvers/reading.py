"""The months in folders, as law.py of `agreement` knows them. It knows nothing of the crates; months of June 2026 alone."""
import csv
import datetime
import pathlib
import sys
import tomllib

sys.path.insert(0, str(pathlib.Path(__file__).resolve().parents[1] / "agreement"))
import law

WEEKDAYS = ["MON", "TUE", "WED", "THU", "FRI", "SAT", "SUN"]


def rows(folder, name):
    with open(folder / f"{name}.csv", newline="") as file:
        return list(csv.reader(file))[1:]


def clock(text):
    hours, minutes = text.split(":")
    return 60 * int(hours) + int(minutes)


class Reader:
    """A folder, and the minutes by which the base's clock is ahead of UTC."""

    def __init__(self, folder):
        self.folder = pathlib.Path(folder)
        rules = tomllib.loads((self.folder / "rules.toml").read_text())
        assert (rules["year"], rules["month"]) == (2026, 6), "law.py knows June 2026 alone"
        self.offset, self.days_off = rules["offset"], rules["days_off"]

    def minute(self, text):
        moment = datetime.datetime.strptime(text, "%Y-%m-%dT%H:%MZ")
        return int((moment - law.FIRST_DAY).total_seconds()) // 60 + self.offset

    def event(self, kind, report, parked, release, legs, credit="0:00"):
        flown = [tuple(map(self.minute, leg.split("/"))) for leg in legs.split()]
        return law.Event(kind, self.minute(report), self.minute(parked), self.minute(release), flown, clock(credit))

    def pairings(self):
        made = {name: law.Pairing(name, int(need), clock(credit), [], [], []) for name, need, credit in rows(self.folder, "pairings")}
        for name, _, report, parked, release, layover in rows(self.folder, "duties"):
            made[name].duties.append(self.event("flight", report, parked, release, ""))
            made[name].layovers.append(layover)
            made[name].stations.append([])
        for name, duty, begins, ends, out, back in rows(self.folder, "legs"):
            made[name].duties[int(duty) - 1].legs.append((self.minute(out), self.minute(back)))
            made[name].stations[int(duty) - 1].append((begins, ends))
        return list(made.values())

    def month(self):
        members = {name: law.Member(name, clock(low), clock(high), [], [], []) for name, low, high in rows(self.folder, "crew")}
        for file, part in (("history", "history"), ("fixed", "fixed")):
            for name, *event in rows(self.folder, file):
                getattr(members[name], part).append(self.event(*event))
        owner = None
        for line in (self.folder / "bids.txt").read_text().splitlines():
            words = line.split("#")[0].split()
            if words[:1] == ["member"]:
                owner = members[words[1]]
            elif words:
                owner.bids.append((int(words[0]), wish(words[1:])))
        return law.Month(self.days_off, self.pairings(), list(members.values()))


def day(text):
    return int(text[-2:])


def atom(words):
    negated = words[0] == "not"
    name, *values = words[1:] if negated else words
    if name in ("report", "release"):
        return negated, f"{name} {values[0]}", clock(values[1])
    value = {"days": int, "weekday": WEEKDAYS.index}.get(name, str)(values[0])
    return negated, name, value


def atoms(words):
    """The tests of a filter."""
    if "and" not in words:
        return [atom(words)]
    at = words.index("and")
    return [atom(words[:at]), *atoms(words[at + 1:])]


def wish(words):
    kind, *rest = words
    if kind == "fly":
        return "fly", rest[0]
    if kind == "avoid":
        return "avoid", atoms(rest)
    if kind == "prefer":
        return "prefer", int(rest[0]), atoms(rest[1:])
    if kind == "off":
        return "off", day(rest[0]), day(rest[-1])
    if kind == "credit":
        return f"credit {rest[0]}", clock(rest[1])
    return kind, int(rest[0])


def reasons(folder):
    """The denied bids, as pairs of member and number from 0, with their causes: a place, or None for a tie."""
    names = [row[0] for row in rows(folder, "crew")]
    found = {}
    for line in (folder / "reasons.txt").read_text().splitlines():
        words = line.split(":")[0].split()
        found[names.index(words[0]), int(words[1]) - 1] = None if words[2] == "tie" else int(words[3])
    return found


def roster(folder, month):
    """The lines of `roster.csv`."""
    numbers = {pairing.name: p for p, pairing in enumerate(month.pairings)}
    return [tuple(numbers[name] for name in row[1].split()) for row in rows(folder, "roster")]
