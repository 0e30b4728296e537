"""What the benches share: the built program, a folder, timed runs, ratios with their goals, and commands of other
packages. bench/launcher.c, which needs a C compiler, starts the runs."""
import functools
import os
import re
import subprocess
import sys
import tempfile
from pathlib import Path

ROOT = Path(__file__).resolve().parent.parent
TALC = ROOT / "crates" / "talc" / "out" / "talc"

# All that is measured, the other packages' commands too, has memory handed out as `./talc` has it, by what
# tools/program.bash sets; with GLIBC_TUNABLES set to nothing, as the C library does it by itself.
TUNABLES = re.search(r"GLIBC_TUNABLES-([^}]+)}", (ROOT / "tools" / "program.bash").read_text(encoding="utf-8"))[1]
os.environ.setdefault("GLIBC_TUNABLES", TUNABLES)

# Examples of what is refused.
REFUSED = ("escape.f", "turn.f")

# A difference of times that is smaller tells nothing.
LEAST_SECONDS = 0.05


def program():
    """The built program; it is not built here."""
    if not TALC.exists():
        sys.exit(f"{TALC} is missing: run ./talc once, which builds it")
    return str(TALC)


def examples():
    """The files of the examples that are programs of the source."""
    return [path for path in sorted((ROOT / "examples").glob("*.f")) if path.name not in REFUSED]


def folder():
    return tempfile.TemporaryDirectory(prefix="talc-bench-")


@functools.cache
def launcher():
    """The small process that starts what is measured, built anew for each script."""
    built = folder()
    code, path = ROOT / "bench" / "launcher.c", f"{built.name}/launcher"
    subprocess.run(["cc", "-O2", "-o", path, str(code)], check=True)
    return built, path


class Run:
    """One run of a command: processor seconds, peak memory in bytes, page faults, what it printed, its status."""

    def __init__(self, words, seconds=0, most_bytes=0):
        with tempfile.TemporaryFile() as out, tempfile.TemporaryFile() as told:
            bounds = [str(told.fileno()), str(seconds), str(most_bytes)]
            subprocess.run(
                [launcher()[1], *bounds, *words], stdout=out, stderr=subprocess.STDOUT, pass_fds=[told.fileno()],
                check=True,
            )
            out.seek(0)
            told.seek(0)
            self.text = out.read().decode(errors="replace")
            status, spent, peak, faults = map(int, told.read().decode().split())
        self.status, self.seconds, self.peak, self.faults = status, spent / 1e6, peak * 1024, faults
        self.rests = self.seconds


def checked(words, wanted=None):
    """A run, which must end with the wanted status and text."""
    run = Run(words)
    status, text = wanted if wanted else (0, None)
    if run.status != status or (text is not None and run.text != text):
        sys.exit(f"{' '.join(words)}: status {run.status}, {run.text[:200]!r}")
    return run


def least(runs):
    """The run with the fewest processor seconds."""
    return min(runs, key=lambda r: r.seconds)


def best(words, times=3, wanted=None):
    """The best of several runs."""
    return least([checked(words, wanted) for _ in range(times)])


def best_in_turn(*commands, times=5):
    """The best of several runs of each command, whose words stand beside what is wanted of it. They are run in turn, so
    that a minute in which the machine is slow tells against none of them."""
    rounds = [[checked(words, wanted) for words, wanted in commands] for _ in range(times)]
    return [least(runs) for runs in zip(*rounds)]


class Spent:
    """What a command takes beyond another that does nothing: seconds and bytes a run, and the seconds of all the runs
    that this rests on. Short runs are repeated, at most 200 times."""

    def __init__(self, words, base, times=3, wanted=None):
        self.run = best(words, times, wanted)
        self.seconds = self.rests = self.run.seconds - base.seconds
        self.bytes = max(0, self.run.peak - base.peak)
        if self.seconds < LEAST_SECONDS:
            count = min(200, int(LEAST_SECONDS / max(self.seconds, 1e-5)) + 2)
            runs = sorted(Run(words).seconds for _ in range(2 * count))[:count]
            self.rests = max(0.0, sum(runs) - count * base.seconds)
            self.seconds = self.rests / count


def says_something(*times):
    return all(it.rests >= LEAST_SECONDS for it in times)


def ratio(part, whole, most, size=1):
    """The ratio of two runs' times, each by its size, with its goal, `slow` where it misses, or that they are too short
    to say."""
    if not says_something(part, whole):
        return f"too short to say ({part.seconds:.4f} s and {whole.seconds:.4f} s)"
    found = part.seconds / whole.seconds / size
    return f"{found:.2f} (wanted: at most {most}){': slow' if found > most else ''}"


def available(name):
    """A command of another package, or the end of the script where it is not installed."""
    for place in os.environ.get("PATH", "").split(":"):
        if os.access(os.path.join(place, name), os.X_OK):
            return os.path.join(place, name)
    sys.exit(f"{name} is not installed")
