"""Calendars of a size: texts that `read_calendar` takes, made by the rules of docs/FORMATS.md and none of the crates."""
HEAD = "BEGIN:VCALENDAR\r\nVERSION:2.0\r\nPRODID:-//pbs//crew calendar//EN\r\n"
END = "END:VCALENDAR\r\n"


def folded(line, first=75, rest=74):
    """A content line with its folds and its end."""
    parts = [line[:first]] + [line[at : at + rest] for at in range(first, len(line), rest)]
    return "\r\n ".join(parts) + "\r\n"


def entry(number, text, first=75, rest=74):
    lines = ["BEGIN:VEVENT", f"UID:p.P{number}.M1.202606@pbs", "DTSTAMP:20260601T000000Z", "DTSTART:20260610T080000Z",
             "DTEND:20260610T143000Z", f"SUMMARY:P{number}", f"DESCRIPTION:{text}", "END:VEVENT"]
    return "".join(folded(line, first, rest) for line in lines)


DUTIES = "1: DUB-LHR 09:00-13:00\\, LHR-DUB 14:00-18:00\\n2: DUB-ORD 09:00-17:00\\n3: ORD-DUB 11:00-15:00"

# What fills a text of so many bytes.
KINDS = {
    "entries of three duties": lambda size: entries(size, lambda n: entry(n, DUTIES)),
    "entries without a description": lambda size: entries(size, lambda n: entry(n, "")),
    "the same, folded after each byte": lambda size: entries(size, lambda n: entry(n, "", 1, 1)),
    "one long description": lambda size: entry(1, "a" * ((size - 400) * 74 // 77)),
    "one of line feeds alone": lambda size: entry(1, "\\n" * ((size - 400) * 37 // 77)),
    "one of folds alone": lambda size: entry(1, "").replace("DESCRIPTION:", "DESCRIPTION:" + "\r\n " * ((size - 400) // 3)),
    "a broken line of feeds": lambda size: "\n" * (size - 100),
    "empty lines": lambda size: "\r\n" * ((size - 100) // 2),
}


def entries(size, of):
    each = len(of(123_456))
    return "".join(of(100_000 + n) for n in range((size - 100) // each))


def write(path, kind, size):
    """The number of bytes written."""
    text = HEAD + KINDS[kind](size) + END
    with open(path, "w", newline="") as file:
        file.write(text)
    return len(text)
