"""Months of trips of one day, and awards of them."""

EVENTS = "member,kind,report,parked,release,legs,credit\n"
RULES = 'base = "DUB"\nseat = "FO"\nyear = 2026\nmonth = 6\noffset = 0\ndays_off = {}\n'


def write(folder, files):
    """The folder with these files; inputs that are not among them hold their header alone."""
    folder.mkdir()
    headers = {"rules.toml": RULES.format(0), "history.csv": EVENTS, "fixed.csv": EVENTS, "bids.txt": ""}
    for name, text in (headers | files).items():
        (folder / name).write_text(text)


def crew(members, low="0:00", high="90:00"):
    return "member,low,high\n" + "".join(f"M{m},{low},{high}\n" for m in range(1, members + 1))


def day_trips(days, credits=("5:00",)):
    """The three pairing files, with a trip from 08:00 to 14:30 on each of these days of June; credits alternate."""
    pairings, duties, legs = "pairing,need,credit\n", "pairing,no,report,parked,release,layover\n", ""
    for number, day in enumerate(days, 1):
        date = f"2026-06-{day:02}"
        pairings += f"P{number},1,{credits[(number - 1) % len(credits)]}\n"
        duties += f"P{number},1,{date}T08:00Z,{date}T14:00Z,{date}T14:30Z,\n"
        legs += f"P{number},1,DUB,LHR,{date}T09:00Z,{date}T13:00Z\n"
    return {"pairings.csv": pairings, "duties.csv": duties, "legs.csv": "pairing,no,from,to,out,in\n" + legs}


def shared_out(members, pairings):
    """The roster that gives pairing after pairing of five hours to member after member, over and over."""
    rows = "member,pairings,credit,score\n"
    for member in range(members):
        line = range(member, pairings, members)
        rows += f"M{member + 1},{' '.join(f'P{p + 1}' for p in line)},{5 * len(line)}:00,0\n"
    return rows
