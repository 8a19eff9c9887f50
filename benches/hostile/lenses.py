"""Months in which a lens makes the search for a line hard."""
import dataclasses
import random

import months

ALL_BIDS = "f" * 16
# Sixteen windows: one year, and stretches of a week and of 28 days that begin all over the month.
WINDOWS = "".join(
    [" f365:391"]
    + [f" d168:{525_600 + 2_880 * n + 60}" for n in range(9)]
    + [f" f672:{500_000 + 5_000 * n}" for n in range(3)]
    + [f" d672:{501_000 + 5_000 * n}" for n in range(3)]
)


@dataclasses.dataclass
class Month:
    files: dict
    weights: list


@dataclasses.dataclass
class Trip:
    """A trip of one day that goes through these stations, from minute to minute of the day."""

    day: int
    start: int
    end: int
    stations: list
    credit: int
    need: int = 1


def clock(minute):
    return f"{minute // 60:02}:{minute % 60:02}"


def minutes(total):
    return f"{total // 60}:{total % 60:02}"


def legs_of(number, trip):
    """Flights from base through the stations and back, without time on the ground."""
    stops = ["DUB", *trip.stations, "DUB"]
    first, last = trip.start + 60, trip.end - 30
    times = [first + (last - first) * k // (len(stops) - 1) for k in range(len(stops))]
    day = f"2026-06-{trip.day:02}"
    for k in range(len(stops) - 1):
        yield f"P{number},1,{stops[k]},{stops[k + 1]},{day}T{clock(times[k])}Z,{day}T{clock(times[k + 1])}Z\n"


def files_of(trips, crew, bids=""):
    pairings, duties = "pairing,need,credit\n", "pairing,no,report,parked,release,layover\n"
    legs = "pairing,no,from,to,out,in\n"
    for number, trip in enumerate(trips, 1):
        day = f"2026-06-{trip.day:02}"
        pairings += f"P{number},{trip.need},{minutes(trip.credit)}\n"
        duties += f"P{number},1,{day}T{clock(trip.start)}Z,{day}T{clock(trip.end - 15)}Z,{day}T{clock(trip.end)}Z,\n"
        legs += "".join(legs_of(number, trip))
    return {"pairings.csv": pairings, "duties.csv": duties, "legs.csv": legs, "crew.csv": crew, "bids.txt": bids}


def noline(member, windows=""):
    """An item on a lens that tracks all bids and looks at everything, by the minute."""
    return f"noline {member} 1 {ALL_BIDS} 1 1{windows}"


def fly_bids(member):
    """64 bids, for every ninth trip."""
    return f"member M{member}\n" + "".join(f"{1 + k} fly P{1 + 9 * k}\n" for k in range(64))


def some_trips(pick, longest, need):
    """600 trips, twenty a day, of from four hours to so many."""
    for number in range(600):
        start = 60 * pick.randrange(1, 24 - longest) + pick.randrange(60)
        length = pick.randrange(4 * 60, longest * 60)
        yield Trip(1 + number % 30, start, min(start + length, 1439), [], pick.randrange(150, length), need)


def some_month(members, longest, crew, most):
    pick = random.Random(7)
    trips = list(some_trips(pick, longest, 9))
    return Month(files_of(trips, crew), [pick.randrange(1, most) for _ in trips])


def plain(members):
    return some_month(members, 9, months.crew(members), 1_000)


def exact(members):
    """Credit is to be 81 hours and 17 minutes."""
    return some_month(members, 9, months.crew(members, "81:17", "81:17"), 2**31)


def crowded(members):
    """Trips of up to 15 hours, credit up to 200 hours, and ten days off."""
    month = some_month(members, 15, months.crew(members, "0:00", "200:00"), 2**31)
    month.files["rules.toml"] = months.RULES.format(10)
    return month


def tight(members):
    """The same with credit by the minute."""
    month = crowded(members)
    month.files["crew.csv"] = months.crew(members, "91:17", "91:17")
    return month


def station(number):
    return "S" + chr(65 + number // 26) + chr(65 + number % 26)


def score(line, trips, values):
    return sum(values[s] for s in {s for p in line for s in trips[p].stations})


def good_line(pick, trips, days, values):
    """A trip a day, each changed for a better one as long as there is one."""
    line = {day: pick.choice([p for p, trip in enumerate(trips) if trip.day == day]) for day in days}
    better = True
    while better:
        better = False
        for p, trip in enumerate(trips):
            other = line | {trip.day: p}
            if score(other.values(), trips, values) > score(line.values(), trips, values):
                line, better = other, True
    return line


def covering():
    """40 trips on each second day, each through three of 64 stations, and 40 pilots who share them out. The first one
    bids for each station, and flies a line that no change of one trip betters.
    """
    pick = random.Random(11)
    days, stations = range(1, 30, 2), [station(n) for n in range(64)]
    values = {s: pick.randrange(100, 1_001) for s in stations}
    trips = [Trip(day, 480, 870, pick.sample(stations, 3), 300) for _ in range(40) for day in days]
    line = good_line(pick, trips, days, values)
    bids = "member M1\n" + "".join(f"{values[s]} prefer 1 arrives {s}\n" for s in stations)
    files = files_of(trips, months.crew(40), bids)
    files["roster.csv"] = roster_of(trips, days, line, score(line.values(), trips, values))
    files["reasons.txt"] = ""
    return Month(files, [])


def roster_of(trips, days, line, total):
    """The line for the first pilot, and for the others what is left of each day."""
    left = {day: [p for p, trip in enumerate(trips) if trip.day == day and p != line[day]] for day in days}
    lines = [sorted(line.values())] + [sorted(left[day][m] for day in days) for m in range(39)]
    rows = "member,pairings,credit,score\n"
    for m, pairings in enumerate(lines, 1):
        names = " ".join(f"P{p + 1}" for p in pairings)
        rows += f"M{m},{names},{5 * len(pairings)}:00,{total if m == 1 else 0}\n"
    return rows
