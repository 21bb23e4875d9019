"""What the gate takes from nothing, crate by crate: python3 bench/gate.py > bench/gate.txt

Runs `rt ci` once with nothing kept, and adds up the processor time of the processes that it starts: for each crate
that of its proof, of its tests and of its must-fail edits. What a process takes after it was last seen, a quarter of
a second at most, isn't counted. Needs root, and a machine that does nothing else. What earlier runs kept stays as it
is: the measure keeps its own, in a folder that is removed.

    python3 bench/gate.py --below PID

adds up what runs below a process, until that ends.
"""
import os
import subprocess
import sys
import tempfile
import time
from collections import defaultdict
from contextlib import suppress

sys.path.insert(0, os.path.join(os.path.dirname(os.path.dirname(os.path.abspath(__file__))), "bin"))
from crates import TOP, lowest_first, uses

TICKS = os.sysconf("SC_CLK_TCK")
PARTS = ["proof", "tests", "edits"]


def processes():
    """Of each process, named by its number and when it began: its parent, and the seconds that it had a processor."""
    found = {}
    for pid in filter(str.isdigit, os.listdir("/proc")):
        with suppress(OSError):
            with open(f"/proc/{pid}/stat") as file:
                words = file.read().rsplit(")", 1)[1].split()
            found[int(pid), words[19]] = int(words[1]), (int(words[11]) + int(words[12])) / TICKS
    return found


def below(root, found):
    """Those that a process started, that these started, and so on."""
    children = defaultdict(list)
    for process, (parent, _) in found.items():
        children[parent].append(process)
    known = children[root][:]
    for pid, _ in known:
        known.extend(children[pid])
    return known


def work(pid):
    """The crate that a process works on, and at which part; None where it works on no crate."""
    with suppress(OSError, ValueError):
        with open(f"/proc/{pid}/cmdline") as file:
            words = file.read().split("\0")
        crate = words[words.index("--crate-name") + 1]
        if "/rt-edit" in os.readlink(f"/proc/{pid}/cwd"):
            return crate, "edits"
        return crate, "tests" if "--test" in words else "proof"
    return None


def watch(root, runs):
    """The seconds of each crate and part below a process, for as long as it runs."""
    works, seconds = {}, {}
    while runs():
        found = processes()
        for process in below(root, found):
            works[process] = works.get(process) or work(process[0])
            seconds[process] = found[process][1]
        time.sleep(0.25)
    sums = defaultdict(float)
    for process, used in seconds.items():
        if works[process]:
            sums[works[process]] += used
    return sums


def report(sums):
    print("# crate, and processor minutes: " + ", ".join(PARTS))
    for crate in lowest_first(uses()):
        print(crate, *(f"{sums[crate, part] / 60:.1f}" for part in PARTS))
    print("# in all", *(f"{sum(used for (_, at), used in sums.items() if at == part) / 60:.0f}" for part in PARTS))


def measure():
    with tempfile.TemporaryFile() as told:
        ran = subprocess.Popen(["rt", "ci"], cwd=TOP, stdout=told, stderr=subprocess.STDOUT)
        report(watch(ran.pid, lambda: ran.poll() is None))
        if ran.returncode:
            told.seek(0)
            sys.exit(told.read().decode())


def main():
    if sys.argv[1:] == ["--alone"]:
        return measure()
    if sys.argv[1:2] == ["--below"]:
        root = int(sys.argv[2])
        return report(watch(root, lambda: os.path.exists(f"/proc/{root}")))
    kit = os.path.dirname(subprocess.run(["rt", "doc"], capture_output=True, text=True).stdout.strip())
    kept = f"{os.path.dirname(kit)}/rattle-kept"
    with tempfile.TemporaryDirectory(dir=os.path.dirname(kit)) as empty:
        inside = f'mount --bind "{empty}" "{kept}" && exec {sys.executable} "{__file__}" --alone'
        return subprocess.run(["unshare", "--mount", "sh", "-c", inside]).returncode


sys.exit(main())
