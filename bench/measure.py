"""What the scripts beside this file share: the words they are given, what a command takes, and tables in Markdown."""
import subprocess
import sys
from pathlib import Path

TOP = Path(__file__).resolve().parent.parent

LAUNCHER = """
import os, sys
output = os.environ.pop("BENCH_OUTPUT", os.devnull)
files = [(os.POSIX_SPAWN_OPEN, 1, output, os.O_WRONLY | os.O_CREAT | os.O_TRUNC, 0o600),
         (os.POSIX_SPAWN_OPEN, 2, os.devnull, os.O_WRONLY, 0)]
child = os.posix_spawnp(sys.argv[1], sys.argv[1:], os.environ, file_actions=files)
_, status, used = os.wait4(child, 0)
print(used.ru_utime + used.ru_stime, used.ru_maxrss, os.waitstatus_to_exitcode(status))
"""

RUNS = 1 if "--quick" in sys.argv else 3

BESIDE = ["Other s", "Other MB", "Ratio", "Same"]


def given():
    """The words behind the script's name that begin with no `--`."""
    return [word for word in sys.argv[1:] if not word.startswith("--")]


def is_quick():
    """Whether the script is to run over small sizes, to be tried itself."""
    return "--quick" in sys.argv


def sized(full, small):
    """The first of both, or the second where the script is only tried."""
    return small if is_quick() else full


def programs():
    """The words that are no numbers: the built program, or crates/xarch/out/xarch, and others beside it."""
    words = [word for word in given() if not word.isdigit()]
    return [str(Path(word).resolve()) for word in words or [TOP / "crates/xarch/out/xarch"]]


def numbers(full, small):
    """The words that are numbers, or else the first of both, or the second where the script is only tried."""
    return [int(word) for word in given() if word.isdigit()] or sized(full, small)


def spend(words, folder=None, output=None, stdin=None, status=0, prepare=None):
    """Runs a command in a folder: processor seconds, peak memory in bytes, status. Its output goes to a file, or nowhere.

    It is spawned and not forked, and from a small process, so that its peak is its own and not that of this script. The script
    ends where the status is another one, unless that is None. What is to be done before, such as a limit, is `prepare`.
    """
    environment = {"PATH": "/usr/local/bin:/usr/bin:/bin"}
    if output is not None:
        environment["BENCH_OUTPUT"] = str(output)
    with open(stdin or "/dev/null", "rb") as source:
        launched = subprocess.run([sys.executable, "-c", LAUNCHER, *words], cwd=folder, env=environment, stdin=source,
                                  stdout=subprocess.PIPE, preexec_fn=prepare, check=True)
    seconds, peak, ended = launched.stdout.split()
    if status not in (None, int(ended)):
        sys.exit(f"{Path(sys.argv[0]).name}: status {int(ended)} of {' '.join(map(str, words))[:200]}")
    return float(seconds), int(peak) * 1024, int(ended)


def least(words, folder=None, output=None, stdin=None, status=0):
    """The least of three runs, or one where the script is only tried."""
    return min(spend(words, folder, output, stdin, status) for _ in range(RUNS))


def head(*names):
    """Prints the head of a table: a column of words, and columns of numbers."""
    print("| " + " | ".join(names) + " |\n|---|" + "---:|" * (len(names) - 1), flush=True)


def row(*cells):
    print("| " + " | ".join(cells) + " |", flush=True)


def seconds(value):
    return f"{value:.3f}" if value < 1 else f"{value:.2f}" if value < 10 else f"{value:,.1f}"


def megabytes(size):
    return f"{size / 1e6:,.1f}"


def times(value):
    """How many times something is something else."""
    return f"{value:.2f}" if value < 1 else f"{value:,.1f}"


def beside_names():
    """Four more columns for each program beside the first."""
    return BESIDE * (len(programs()) - 1)


def beside(ours, theirs, is_same):
    """The cells of these columns: what the other program took, the ratio of the seconds, and whether both did the same."""
    return [seconds(theirs[0]), megabytes(theirs[1]), times(ours[0] / max(theirs[0], 0.001)), "yes" if is_same else "NO"]
