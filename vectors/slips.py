"""Wrong models, each with one slip, and the list that must catch it.

slips.txt names each slip, the module it is in and the list, with the lines that
the slip takes out (-) and puts in (+). compare.py is run over the list in a
copy with the slip. A slip that no record shows is a gap in the lists.
"""

import concurrent.futures
import os
import re
import shutil
import subprocess
import sys
import tempfile
from typing import NamedTuple

HERE = os.path.dirname(os.path.abspath(__file__))


class Slip(NamedTuple):
    """A slip's name, its module, the list that shows it, the lines changed."""

    name: str
    module: str
    list: str
    old: str
    new: str


def read_slips():
    """The slips of slips.txt."""
    with open(os.path.join(HERE, "slips.txt")) as file:
        blocks = re.split(r"^== ", file.read(), flags=re.MULTILINE)[1:]
    for block in blocks:
        name, place, *lines = block.rstrip("\n").split("\n")
        old = "\n".join(line[1:] for line in lines if line.startswith("-"))
        new = "\n".join(line[1:] for line in lines if line.startswith("+"))
        yield Slip(name, *place.split(), old, new)


def copy_with(slip, folder):
    """Copies the modules to a folder, one of them with the slip."""
    for name in os.listdir(HERE):
        if name.endswith(".py"):
            shutil.copy(os.path.join(HERE, name), folder)
    path = os.path.join(folder, slip.module)
    with open(path) as file:
        text = file.read()
    if text.count(slip.old) != 1:
        sys.exit("slips.py: %s does not hold the old lines once: %s" % (slip.module, slip.name))
    with open(path, "w") as file:
        file.write(text.replace(slip.old, slip.new))


def caught(slip):
    """How many records of the list differ under the slip; 0 where the comparison stops, for then no record shows it."""
    with tempfile.TemporaryDirectory() as folder:
        copy_with(slip, folder)
        command = [sys.executable, os.path.join(folder, "compare.py"), os.path.join(HERE, "data", slip.list)]
        run = subprocess.run(command, capture_output=True, text=True)
    found = re.search(r"(\d+) differ\n$", run.stdout)
    return int(found.group(1)) if found else 0


def main(words):
    """Runs all slips, or those whose names hold one of the words."""
    chosen = [slip for slip in read_slips() if not words or any(word in slip.name for word in words)]
    absent = sorted({slip.list for slip in chosen if not os.path.exists(os.path.join(HERE, "data", slip.list))})
    if absent:
        sys.exit("slips.py: make.py has not made %s" % " ".join(absent))
    missed = 0
    with concurrent.futures.ThreadPoolExecutor(os.cpu_count()) as workers:
        for slip, count in zip(chosen, workers.map(caught, chosen)):
            missed += count == 0
            print("%-50s %-10s %6d" % (slip.name, slip.list, count), flush=True)
    print("%d slips, %d missed" % (len(chosen), missed))
    return 1 if missed or not chosen else 0


if __name__ == "__main__":
    sys.exit(main(sys.argv[1:]))
