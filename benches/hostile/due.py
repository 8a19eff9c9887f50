"""What `pbs check` must say of the month of two pilots with a file cut after so many bytes, by docs/FORMATS.md."""
import tomllib

YES = "yes, vector 10 0"
KEYS = ["base", "seat", "year", "month", "offset", "days_off"]
# What is wanted where a file holds no row, or not its second one.
NO_ROW = {
    "pairings.csv": "bad duties.csv 2 6",
    "duties.csv": "bad legs.csv 2 6",
    "legs.csv": "bad duties.csv 2 11",
    "crew.csv": "bad crew.csv 1 11",
}
ONE_PILOT = "bad bids.txt 3 8 5"


def of_rules(text):
    try:
        table = tomllib.loads(text)
    except tomllib.TOMLDecodeError:
        return "bad rules.toml 1"
    missing = [key for key in KEYS if key not in table]
    return f"bad rules.toml 2 {missing[0]}" if missing else YES


def field_fault(name, field):
    """The fault of a last field that is a front of minutes or of a moment; a layover may be empty."""
    whole = {"pairings.csv": 4, "crew.csv": 5, "legs.csv": 17}.get(name, 0)
    if len(field) == whole:
        return None
    return f"2 {len(field) + 1}" if field else "1"


def of_csv(name, whole, text):
    """The header, the last row that is there, and then the rows that are not."""
    rows, wanted = text.split("\n"), whole.split("\n")
    rows = rows[:-1] if rows[-1] == "" else rows
    if not rows or rows[0] != wanted[0]:
        return f"bad {name} 1 1"
    fields, width = rows[-1].split(","), len(wanted[0].split(","))
    if len(rows) > 1 and len(fields) < width:
        return f"bad {name} {len(rows)} 3"
    fault = field_fault(name, fields[-1]) if len(rows) > 1 else None
    if fault:
        return f"bad {name} {len(rows)} 4 {width} {fault}"
    if len(rows) == 1:
        return NO_ROW.get(name, YES)
    return ONE_PILOT if name == "crew.csv" and len(rows) == 2 else YES


def member_fault(line, first):
    """The column and code of a front of `member M1`: a first word, no name, or a name of nobody."""
    if len(line) < 6:
        return "1 2" if first else "1 3"
    return "8 5" if line.endswith("M") else f"{len(line) + 1} 2"


def bid_fault(line):
    """The column and code of a front of `10 fly P1`."""
    if line.endswith("P"):
        return "8 6"
    return "4 2" if line in ("10 f", "10 fl") else f"{len(line) + 1} 2"


def of_bids(whole, text):
    """The line that is cut; else bids are missing of which roster or reasons speak."""
    lines, wanted = text.split("\n"), whole.split("\n")
    number, line = len(lines), lines[-1]
    if line and line != wanted[number - 1]:
        fault = member_fault(line, number == 1) if number in (1, 3) else bid_fault(line)
        return f"bad bids.txt {number} {fault}"
    bids = (number if line else number - 1) // 2
    return ["no roster 2 5", "no reasons 1 3", YES][bids]


def of_certificate(text):
    return "no certificate %d 4" % (text.count("\n") + 1)


def of_roster(text):
    """The row that is cut: the header, a row that is not whole, or one that is missing."""
    row = text.count("\n") + 1
    if row == 1:
        return "no roster 1 1"
    return "no roster %d %d" % (row, 6 if text.endswith("\n") else 2)


def of_cut(name, whole, size):
    """The line that is due, with its parts joined by a comma."""
    whole, text = whole.decode(), whole[:size].decode()
    if name == "rules.toml":
        return of_rules(text)
    if name == "bids.txt":
        return of_bids(whole, text)
    if name == "certificate.txt":
        return of_certificate(text)
    if name == "roster.csv":
        return of_roster(text)
    if name == "reasons.txt":
        return "no reasons 1 1" if text else "no 3 1"
    return of_csv(name, whole, text)
