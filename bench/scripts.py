"""Times the program on large scripts, the array workloads of the language among them:
python3 bench/scripts.py [RUNS]

Makes the scripts, runs the proved program on each RUNS times (5), and prints the least seconds of a run, the
bytes read and written, the instructions a byte read (counted by valgrind, where it is there), and the census:
how many elements were copied, and how many the sharing rule allows. A row of a workload and the row of its
double show how it grows. What an empty script takes is taken off. Nothing here is part of the tests.
"""
import os
import re
import shutil
import subprocess
import sys
import tempfile
import time

TOP = os.path.dirname(os.path.dirname(os.path.abspath(__file__)))
PROGRAM = f"{TOP}/crates/cowrun/out/cowrun"
CENSUS = re.compile(rb"copied (\d+) of at most (\d+)\n\Z")


def array(name, count):
    """A line that makes an array of so many integers."""
    atoms = " ".join(str((i * 7919) % 1000003 - 500000) for i in range(count))
    return f"let {name} = array {atoms}"


def long_line(count):
    """So many integers on one line, shown once."""
    return [array("a", count), "show a"]


def made(count):
    """So many integers of either sign on one line, and nothing else."""
    return [array("a", count)]


def texts(count):
    """So many texts on one line, some with an escape, and nothing else."""
    return ["let a = array " + " ".join(f'"part {i} of \\"{i % 97}\\""' if i % 8 == 0 else f'"part {i}"' for i in range(count))]


def short_lines(count):
    """Many short lines, each of which prints."""
    return ["let a = array 1 2 3"] + ["show a"] * count


def appends(count):
    """An array made by appends, and shown once."""
    return ["let a = array"] + [f"append a {i}" for i in range(count)] + ["show a"]


def assignments(count):
    """Copies of an array of 65,536 elements, which nothing changes."""
    return [array("a", 65536)] + ["let c = a"] * count


def changes_of_copies(count):
    """Copies of an array of 1,000 elements, each of which is changed once."""
    return [array("a", 1000)] + ["let b = a", "set b 0 7"] * count


def changes_of_a_moved_array(count):
    """An array of 1,000 elements that goes from name to name, and is changed under each."""
    lines = [array("a", 1000)]
    for _ in range(count):
        lines += ["let b = a", "drop a", "append b 1", "pop b last", "let a = b", "drop b"]
    return lines


def many_aliases(count):
    """64 names of one array of 1,000 elements, which are changed in turn."""
    names = [f"n{i}" for i in range(64)]
    lines = [array(names[0], 1000)] + [f"let {name} = {names[0]}" for name in names[1:]]
    return lines + [f"set {names[i % 64]} 5 {i}" for i in range(count)]


def inserts_and_removals(count):
    """Inserts and removals in the middle of an array of 10,000 elements."""
    return [array("a", 10000)] + ["insert a 5000 1", "remove a 5000"] * count


def splices(count):
    """Splices in an array of 10,000 elements."""
    return [array("a", 10000)] + ["splice a 100 104 1 2 3 4"] * count


def slices(count):
    """Slices of an array of 10,000 elements, of which the first few are taken."""
    return [array("a", 10000)] + ["let s = slice a 10 9000", "pop s first", "pop s first"] * count


def doublings(count):
    """An array that is extended by itself up to 32,768 elements, over and over."""
    return (["let a = array 1"] + ["extend a a"] * 15) * count


def comparisons(count):
    """Comparisons of two arrays of 10,000 elements each."""
    return [array("a", 10000), array("b", 10000)] + ["equal a b"] * count


def reversals(count):
    """Reversals of an array of 10,000 elements."""
    return [array("a", 10000)] + ["reverse a"] * count


def reads(count):
    """Reads of an array of 10,000 elements, by position."""
    return [array("a", 10000)] + [f"get a {i % 10000}" for i in range(count)]


def blanks(count):
    """Empty lines."""
    return [""] * count


WORKLOADS = [
    ("integers, read alone", made, [32768, 65536]),
    ("texts, read alone", texts, [32768, 65536]),
    ("integers on one line", long_line, [32768, 65536]),
    ("short lines", short_lines, [15000, 30000, 60000]),
    ("appends", appends, [15000, 30000, 60000]),
    ("assignments", assignments, [10000, 20000, 40000]),
    ("changes of copies", changes_of_copies, [5000, 10000, 20000]),
    ("changes of a moved array", changes_of_a_moved_array, [3000, 6000, 12000]),
    ("changes under 64 names", many_aliases, [10000, 20000, 40000]),
    ("inserts and removals", inserts_and_removals, [5000, 10000, 20000]),
    ("splices", splices, [5000, 10000, 20000]),
    ("slices, and pops", slices, [5000, 10000, 20000]),
    ("doublings to 32,768", doublings, [100, 200, 400]),
    ("comparisons", comparisons, [5000, 10000, 20000]),
    ("reversals", reversals, [5000, 10000, 20000]),
    ("reads by position", reads, [15000, 30000, 60000]),
    ("empty lines", blanks, [524288, 1048576]),
]


def run(script):
    """The seconds of one run, the bytes written before the census, and the census's two numbers."""
    start = time.perf_counter()
    done = subprocess.run([PROGRAM, "run", "--census"], input=script, capture_output=True)
    taken = time.perf_counter() - start
    census = CENSUS.search(done.stdout)
    if done.returncode != 0 or census is None:
        sys.exit(f"the program ended with status {done.returncode}: {done.stdout[:200]!r}")
    return taken, census.start(), int(census[1]), int(census[2])


def instructions(script):
    """The instructions of one run, or None where nothing counts them."""
    if not shutil.which("valgrind"):
        return None
    with tempfile.NamedTemporaryFile() as out:
        done = subprocess.run(["valgrind", "--tool=callgrind", f"--callgrind-out-file={out.name}", PROGRAM, "run"],
                              input=script, capture_output=True)
    return int(re.search(rb"Collected : (\d+)", done.stderr)[1])


def main(runs):
    proved = "source bin/proved; is_proved cowrun || bin/prove cowrun >&2"
    subprocess.run(["bash", "-c", proved], cwd=TOP, check=True)
    idle, start = min(run(b"")[0] for _ in range(runs)), instructions(b"")
    print(f"an empty script takes {idle:.4f} s, which is taken off each line below")
    print(f"{'script':32} {'seconds':>8} {'read':>8} {'written':>8} {'a byte':>8} {'copied':>11} {'at most':>11}")
    for name, workload, counts in WORKLOADS:
        for count in counts:
            script = "".join(line + "\n" for line in workload(count)).encode()
            if len(script) > 1048576:
                sys.exit(f"{count} {name}: {len(script)} bytes are too many")
            least, written, copied, most = min(run(script) for _ in range(runs))
            each = "" if start is None else f"{(instructions(script) - start) / len(script):.1f}"
            print(f"{f'{count:,} {name}':32} {max(least - idle, 0.0):8.4f} {len(script):8} {written:8} {each:>8} {copied:11} {most:11}")


main(int(sys.argv[1]) if len(sys.argv) > 1 else 5)
