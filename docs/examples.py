"""Runs the examples of a document: python3 docs/examples.py docs/LANGUAGE.md

An example is a block of code that is marked `cow`, followed by a block that is marked `prints`: the
script, and what the program prints and, on a last line `(status N)`, how it ends where that isn't 0.
One that is marked `cow-later` is of a form that the program doesn't run yet: what it prints is what the
definitions say, as the program `yardstick` runs them. Prints the examples that go otherwise, and nothing
where there are none. A document without examples is a fault too.
"""
import re
import subprocess
import sys

PROGRAMS = {"cow": ["bin/cowrun", "run"], "cow-later": ["bin/yardstick"]}


def main(path):
    text = open(path).read()
    examples = re.findall(r"```(cow|cow-later)\n(.*?)```\s*```prints\n(.*?)```", text, re.S)
    if len(examples) != len(re.findall(r"```cow(?:-later)?\n", text)) or not examples:
        print(f"{path}: each block `cow` needs a block `prints` behind it")
    for mark, script, wanted in examples:
        run = subprocess.run(PROGRAMS[mark], input=script.encode(), capture_output=True)
        found = run.stdout.decode()
        if run.returncode != 0:
            found += f"(status {run.returncode})\n"
        if found != wanted:
            print(f"{path}:\n{script}--- wanted\n{wanted}--- found\n{found}")


main(sys.argv[1])
