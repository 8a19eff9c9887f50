"""The program, and folders to run it on. The variable PROGRAM of the environment names another program."""
import contextlib
import os
import pathlib
import shutil
import signal
import subprocess
import tempfile

TOP = pathlib.Path(__file__).resolve().parents[2]
PROGRAM = os.environ.get("PROGRAM", str(TOP / "crates/roster_cli/out/roster_cli"))
INPUTS = [
    "rules.toml", "pairings.csv", "duties.csv", "legs.csv", "crew.csv", "history.csv", "fixed.csv", "bids.txt",
]
AWARD = ["certificate.txt", "reasons.txt", "roster.csv"]
STOPPED = (-signal.SIGXCPU, -signal.SIGKILL)
JUDGED = INPUTS + ["certificate.txt", "roster.csv", "reasons.txt"]


LIMITS = 'ulimit -t "$1"; ulimit -v "$2"; shift 2; exec "$@"'
MOST_MEMORY = 6 * 2**20


class Run:
    """The exit code of a run (None where it was stopped), what it printed, its seconds of the processor, and its MiB
    (not less than those of this script). It is stopped after so many seconds of the processor, and has 6 GiB of memory,
    where no other number of KiB is said.
    """

    def __init__(self, folder, *words, limit=60, stdout=subprocess.PIPE, stderr=None, memory=MOST_MEMORY):
        command = ["sh", "-c", LIMITS, "sh", str(limit), str(memory), PROGRAM, str(folder), *words]
        run = subprocess.Popen(command, stdout=stdout, stderr=stderr)
        printed = run.stdout.read() if run.stdout else b""
        status, usage = os.wait4(run.pid, 0)[1:]
        run.returncode = os.waitstatus_to_exitcode(status)
        self.code = None if run.returncode in STOPPED else run.returncode
        self.printed = printed.decode("ascii", "replace")
        self.seconds = usage.ru_utime + usage.ru_stime
        self.mebibytes = usage.ru_maxrss // 1024

    def line(self):
        """What was printed, on one line."""
        return ", ".join(self.printed.splitlines())


@contextlib.contextmanager
def copied(example):
    """A copy of the eight inputs and the award of an example, in a folder that everyone may read."""
    with tempfile.TemporaryDirectory() as made:
        folder = pathlib.Path(made, example)
        folder.mkdir()
        for name in JUDGED:
            if (TOP / "examples" / example / name).exists():
                shutil.copyfile(TOP / "examples" / example / name, folder / name)
        pathlib.Path(made).chmod(0o755)
        yield folder


@contextlib.contextmanager
def small_disk(size):
    """A disk in memory, or nothing where none can be had."""
    with tempfile.TemporaryDirectory() as made:
        mount = subprocess.run(["mount", "-t", "tmpfs", "-o", f"size={size}", "tmpfs", made], capture_output=True)
        try:
            yield None if mount.returncode else made
        finally:
            if mount.returncode == 0:
                subprocess.run(["umount", made], check=True)


def contents(folder):
    """What the files of a folder hold; nothing of what is no plain file."""
    return {path.name: path.read_bytes() for path in sorted(folder.iterdir()) if path.is_file()}


def certificate(lines, head="award 1 0", proof=None):
    """A certificate with one proof of these lines; its number of items is theirs, where no other one is said."""
    items = sum(not line.startswith("lens ") for line in lines) if proof is None else proof
    return "\n".join(["pbs-certificate 1", head, f"proof {items}", *lines, "end", ""])


class Tally:
    """How many answers were tried and how many differed from what was due."""

    def __init__(self):
        self.tried = self.differed = 0

    def compare(self, what, due, got):
        self.tried += 1
        if due != got:
            self.differed += 1
            print(f"{what}: due {due!r}, but got {got!r}")

    def close(self, name):
        """Says both, and ends the script with 1 where one differed."""
        print(f"{name}: {self.tried} tried, {self.differed} differed")
        raise SystemExit(1 if self.differed else 0)
