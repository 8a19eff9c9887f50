"""A certificate of version 1 written in version 2 or 3, by the rules of docs/FORMATS.md.

It may have lenses that look at whole lines, and is of version 3 then: `whole` in place of `lens`, and behind the number of a member.
"""


class Numbers:
    """The lenses of a proof by their words, in the order in which they are named."""

    def __init__(self):
        self.numbers = {}

    def of(self, words):
        line = " ".join(words if words[0] in ("lens", "whole") else ["lens", *words])
        return str(self.numbers.setdefault(line, len(self.numbers) + 1))


def item(lines, numbers):
    """The lines of the item at the front of these, which are taken off."""
    first, *words = lines.pop(0).split(" ")
    if first == "noline":
        return [f"noline {words[0]} {numbers.of(words[1:])}"]
    if first != "weights":
        return [" ".join([first, *words])]
    weights = words[1:]
    pairs = [f"{place}:{weight}" for place, weight in enumerate(weights, 1) if weight != "0"]
    uses = [numbers.of(lines.pop(0).split(" ")) for _ in range(int(words[0]))]
    return [" ".join(["weights", str(len(weights)), *pairs]), " ".join(["by", *uses])]


def proof(lines, count):
    """The lines of a proof of so many items at the front of these."""
    numbers = Numbers()
    items = [line for _ in range(count) for line in item(lines, numbers)]
    return [f"proof {count} {len(numbers.numbers)}", *numbers.numbers, *items]


def text(first):
    """The text of version 2, or 3, of a text of version 1, which reads but for such lenses."""
    lines = first.split("\n")
    made = []
    lines.pop(0)
    while lines:
        line = lines.pop(0)
        made += proof(lines, int(line[6:])) if line.startswith("proof ") else [line]
    version = 3 if any(line.startswith("whole ") for line in made) else 2
    return "\n".join([f"pbs-certificate {version}", *made])
