"""The crates of the repository, as crates.txt lists them, and how long the gate takes over each."""
import os

TOP = os.path.dirname(os.path.dirname(os.path.abspath(__file__)))


def uses():
    """The crates, and the names that each uses."""
    found = {}
    for line in open(f"{TOP}/crates.txt"):
        crate, _, names = line.split("#")[0].partition(":")
        if crate.strip():
            found[crate.split()[0]] = names.split()
    return found


def lowest_first(names):
    """These crates and all that they stand on, lowest first."""
    known, order = uses(), []

    def add(crate):
        for low in known[crate]:
            if low in known and low not in order:
                add(low)
        if crate not in order:
            order.append(crate)

    for name in names:
        add(name)
    return order


def minutes():
    """The processor minutes that the gate takes over each crate from nothing, where they were measured."""
    path = f"{TOP}/bench/gate.txt"
    if not os.path.exists(path):
        return {}
    rows = [line.split() for line in open(path) if line.strip() and not line.startswith("#")]
    return {row[0]: float(row[1]) for row in rows}
