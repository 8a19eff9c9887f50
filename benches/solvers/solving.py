"""Two solvers over the rows of model.py, both cold at each call and on one processor: HiGHS, which scipy brings, and CBC."""
import pathlib
import resource
import subprocess
import tempfile

LIMIT = 900


class Undecided(Exception):
    """The solver said neither that there is a solution nor that there is none."""


def user():
    """The user seconds of this process and of those that it started."""
    return sum(resource.getrusage(who).ru_utime for who in (resource.RUSAGE_SELF, resource.RUSAGE_CHILDREN))


class Solver:
    """Counts its calls and their user seconds."""

    def __init__(self):
        self.calls, self.seconds = 0, 0.0

    def solve(self, most, rows, aim):
        """The whole columns that are within the rows and have the greatest aim, or None where there are none."""
        begun = user()
        found = self.solved(most, rows, aim)
        self.calls, self.seconds = self.calls + 1, self.seconds + user() - begun
        return found and [round(value) for value in found]


class Highs(Solver):
    name = "HiGHS"

    def __init__(self, presolve=True):
        super().__init__()
        self.presolve = presolve

    def solved(self, most, rows, aim):
        import numpy
        from scipy.optimize import Bounds, LinearConstraint, milp
        from scipy.sparse import csr_array
        terms = [(at, column, value) for at, (row, _, _) in enumerate(rows) for column, value in row.items()]
        at, columns, values = zip(*terms)
        matrix = csr_array((values, (at, columns)), shape=(len(rows), len(most)), dtype=float)
        lows = [-numpy.inf if low is None else low for _, low, _ in rows]
        highs = [numpy.inf if high is None else high for _, _, high in rows]
        cost = numpy.zeros(len(most))
        for value, column in aim:
            cost[column] -= value
        options = {"time_limit": LIMIT, "mip_rel_gap": 0, "presolve": self.presolve}
        found = milp(cost, integrality=numpy.ones(len(most)), bounds=Bounds(0, most),
                     constraints=LinearConstraint(matrix, lows, highs), options=options)
        if found.status == 2:
            return None
        if found.status != 0:
            raise Undecided(found.message)
        return list(found.x)


def mps(most, rows, aim):
    """The rows as MPS, which asks for the least of what is aimed at."""
    kinds, sides, ranges = ["N aim"], [], []
    aimed = {column: value for value, column in aim}
    columns = [[("aim", -aimed.get(column, 0))] for column in range(len(most))]
    for at, (row, low, high) in enumerate(rows):
        kind, side = ("E", low) if low == high else ("L", high) if high is not None else ("G", low)
        kinds.append(f"{kind} r{at}")
        sides.append(f"rhs r{at} {side}")
        if kind == "L" and low is not None:
            ranges.append(f"rng r{at} {high - low}")
        for column, value in row.items():
            columns[column].append((f"r{at}", value))
    body = [f"c{at} {row} {value}" for at, column in enumerate(columns) for row, value in column]
    bounds = [f"UI bnd c{at} {upper}" for at, upper in enumerate(most)]
    marks = ["m 'MARKER' 'INTORG'", *body, "m 'MARKER' 'INTEND'"]
    parts = [["NAME month FREE"], ["ROWS", *kinds], ["COLUMNS", *marks], ["RHS", *sides], ["RANGES", *ranges], ["BOUNDS", *bounds]]
    return "".join(part[0] + "\n" + "".join(f" {line}\n" for line in part[1:]) for part in parts) + "ENDATA\n"


class Cbc(Solver):
    name = "CBC"

    def solved(self, most, rows, aim):
        with tempfile.TemporaryDirectory() as made:
            model, answer = pathlib.Path(made, "model.mps"), pathlib.Path(made, "answer")
            model.write_text(mps(most, rows, aim))
            words = ["cbc", model, "-sec", str(LIMIT), "-ratioGap", "0", "-solve", "-solution", answer]
            subprocess.run(words, check=True, stdout=subprocess.DEVNULL)
            lines = answer.read_text().splitlines()
        if "nfeasible" in lines[0]:
            return None
        if not lines[0].startswith("Optimal"):
            raise Undecided(lines[0])
        found = [0.0] * len(most)
        for line in lines[1:]:
            name, value = line.split()[-3:-1]
            found[int(name[1:])] = float(value)
        return found
