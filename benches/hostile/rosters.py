"""Awards with as many reasons as can be, each a tie that a roster shows."""
import datetime

import months

FLIGHT = "M{0},flight,{1}T08:00Z,{1}T10:00Z,{1}T10:30Z,{1}T08:30Z/{1}T09:30Z,0:00\n"


def history(members, rows):
    """A flight of an hour on each of so many days before the month, of at most 360."""
    text = months.EVENTS
    for member in members:
        text += "".join(FLIGHT.format(member, day) for day in days_before(rows))
    return {"history.csv": text}


def days_before(rows):
    """So many days before June of 2026, the earliest first."""
    last = datetime.date(2026, 5, 30)
    return [str(last - datetime.timedelta(days=n)) for n in range(min(rows, 360), 0, -1)]


def scored(lines, scores):
    rows = "member,pairings,credit,score\n"
    for member, (line, score) in enumerate(zip(lines, scores), 1):
        rows += f"M{member},{' '.join(f'P{p}' for p in line)},{5 * len(line)}:00,{score}\n"
    return rows


def bids_of(first, second, denied):
    """One bid for the first pairing, and so many that weigh as much for the second."""
    return f"{denied} fly P{first}\n" + f"1 fly P{second}\n" * denied


def shown(members, denied, rows):
    """The inputs, the certificate and its number of rosters. Two and two pilots could change their trips, which are of
    one day; each bids as much for the other's trip, in so many bids.
    """
    other = [m + 1 if m % 2 else m - 1 for m in range(1, members + 1)]
    bids, reasons = "", ""
    for member, second in enumerate(other, 1):
        bids += f"member M{member}\n" + bids_of(member, second, denied)
        reasons += "".join(f"M{member} {k} tie: 1 fly P{second}\n" for k in range(2, denied + 2))
    files = months.day_trips([1 + (m // 2) % 30 for m in range(members)]) | {"crew.csv": months.crew(members)}
    files |= {"bids.txt": bids, "reasons.txt": reasons} | history(range(1, members + 1), rows)
    files["roster.csv"] = scored([[m] for m in range(1, members + 1)], [denied] * members)
    tracked = f"{2 ** (denied + 1) - 1:016x}"
    proofs = [line for m in range(1, members + 1) for line in ("proof 1", f"noline {m} 60 {tracked} 0 0")]
    roster = [f"line {p}" for p in other]
    parts = [f"shown 0 {members}", *roster] * (members * denied)
    head = ["pbs-certificate 1", f"award {members} {members * denied}"]
    return files, "\n".join([*head, *proofs, *parts, "end", ""]), members * denied, 12_800
