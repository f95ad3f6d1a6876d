#!/usr/bin/env python3
"""How many crates one command of `rt` visits before it begins, for each crate, and what crates.txt lists twice.

Before a check `rt` stamps each crate below, once for each path of crates.txt that leads to it, and twice in a command. So each crate
that a line lists though it is reached through another one on it is paid many times over. Prints for each crate the visits of one
command; then what is wrong, and ends with status 1 where something is:

- a crate of BOUNDS has more visits than it says;
- a line lists a crate that is reached through another one on it. The ground crates may be listed everywhere.

    tests/paths.py
"""
import functools
import os
import sys

ROOT = os.path.dirname(os.path.dirname(os.path.realpath(__file__)))
GROUND = ("mt_base", "mt_values", "mt_outside")
BOUNDS = {"mt_program": 6000, "session": 4000}
STAMPS_IN_A_COMMAND = 2


def read_crates():
    """The crates of the repository in the order of crates.txt, each with those of them that its line lists."""
    listed = {}
    with open(os.path.join(ROOT, "crates.txt"), encoding="utf-8") as lines:
        for line in lines:
            name, colon, low = line.split("#")[0].partition(":")
            if colon:
                listed[name.split()[0]] = low.split()
    return {name: [one for one in low if one in listed] for name, low in listed.items()}


def main():
    crates = read_crates()

    @functools.lru_cache(maxsize=None)
    def stamped(name):
        """How many crates are read for one stamp of this one."""
        return 1 + sum(stamped(low) for low in crates[name])

    @functools.lru_cache(maxsize=None)
    def reach(name):
        return frozenset({name}).union(*(reach(low) for low in crates[name]))

    wrong = []
    for name, listed in crates.items():
        visits = STAMPS_IN_A_COMMAND * sum(stamped(low) for low in reach(name))
        print(f"{visits:7}  {name}")
        if visits > BOUNDS.get(name, visits):
            wrong.append(f"{name}: {visits} visits, and at most {BOUNDS[name]} are meant")
        for low in listed:
            through = [other for other in listed if other != low and low in reach(other)]
            if through and low not in GROUND:
                wrong.append(f"{name}: {low} is listed, and reached through {', '.join(through)}")
    for name in BOUNDS.keys() - crates.keys():
        wrong.append(f"{name} is no crate of crates.txt")
    for line in wrong:
        print(line)
    return 1 if wrong else 0


if __name__ == "__main__":
    sys.exit(main())
