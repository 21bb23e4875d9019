"""Times forks on 1, 2 and 4 workers: python3 bench/forks.py [RUNS]

Four tasks of equal work, each on a copy of the same array, run on 1, 2 and 4 workers, and the same statements without
a fork. Prints for each the least wall time and processor time of RUNS runs (5), and their ratio to one worker. What
every run prints has to be the same. Nothing here is part of the tests.
"""
import os
import resource
import subprocess
import sys
import time

TOP = os.path.dirname(os.path.dirname(os.path.abspath(__file__)))
PROGRAM = f"{TOP}/crates/cowrun/out/cowrun"
TASKS = 4
ELEMENTS = 20000
CHANGES = 8000


def array():
    """The array that all tasks start from."""
    return "let a = array " + " ".join(str((i * 7919) % 1000003 - 500000) for i in range(ELEMENTS))


def work():
    """The statements of a task: a copy of a value that others share is changed, and goes, each time."""
    return ["let b = a", "set b 0 7"] * CHANGES + ["count b"]


def forked():
    """Four tasks on copies of one array."""
    return [array(), "fork"] + (["task copy a"] + work() + ["end"]) * TASKS + ["end"]


def alone():
    """The same statements, one task's after the other, without a fork."""
    return [array(), "let c = a"] + work() * TASKS


def timed(script, workers):
    """Wall time, processor time and output of one run."""
    before = resource.getrusage(resource.RUSAGE_CHILDREN)
    start = time.perf_counter()
    run = subprocess.run([PROGRAM, "run", "--workers", str(workers)], input=script, capture_output=True, check=True)
    wall = time.perf_counter() - start
    after = resource.getrusage(resource.RUSAGE_CHILDREN)
    return wall, after.ru_utime + after.ru_stime - before.ru_utime - before.ru_stime, run.stdout


def least(found):
    """The least wall time and the least processor time of several runs."""
    return min(wall for wall, _, _ in found), min(processor for _, processor, _ in found)


def main():
    runs = int(sys.argv[1]) if len(sys.argv) > 1 else 5
    fork = "\n".join(forked()).encode() + b"\n"
    plain = "\n".join(alone()).encode() + b"\n"
    if not os.path.exists(PROGRAM):
        sys.exit("prove the program first: bin/prove")
    rows = {f"{workers} workers": (fork, workers) for workers in (1, 2, 4)} | {"no fork": (plain, 1)}
    # the rows take turns, so that what else the machine does meets all of them
    turns = [{name: timed(*row) for name, row in rows.items()} for _ in range(runs)]
    if len({out for turn in turns for name, (_, _, out) in turn.items() if name != "no fork"}) != 1:
        sys.exit("runs of one script print different texts")
    times = {name: least([turn[name] for turn in turns]) for name in rows}
    base = times["1 workers"]
    print(f"{'':12}{'wall':>9}{'ratio':>8}{'processor':>12}{'ratio':>8}")
    for name, (wall, processor) in times.items():
        print(f"{name:12}{wall:9.3f}{wall / base[0]:8.2f}{processor:12.3f}{processor / base[1]:8.2f}")


main()
