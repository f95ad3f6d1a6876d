#!/usr/bin/env python3
"""Renews what the pages say was measured, between marks `<!-- time of NAME -->` and `<!-- end -->`.

    tests/times.py build          from the log of bin/build, which must be of a build from nothing; writes bin/seconds.txt too
    tests/times.py try            runs bin/try on examples/first.sql, and tells what it took

Run it with nothing else beside. It prints what it writes, with the page. For a build from nothing: a fresh clone, or `rm -rf crates/*/out`
and then bin/build.
"""
import datetime
import os
import re
import subprocess
import sys
import textwrap
import time

ROOT = os.path.dirname(os.path.dirname(os.path.realpath(__file__)))
LOG = os.path.join(ROOT, "crates", "mergetree", "out", "build.log")
HEAD = """# What each crate takes of one processor, in seconds. bin/build begins with what is dear, and estimates by it what is left; a crate
# that is not listed counts as 100. `tests/times.py` writes this file anew after a build from nothing.
"""


def pages():
    yield os.path.join(ROOT, "README.md")
    docs = os.path.join(ROOT, "docs")
    yield from (os.path.join(docs, name) for name in sorted(os.listdir(docs)) if name.endswith(".md"))


def wrapped(paragraph):
    """The paragraph at the width of the pages, with no mark cut in two."""
    whole = re.sub(r"<!--.*?-->", lambda mark: mark[0].replace(" ", "\0"), " ".join(paragraph.split()))
    return textwrap.fill(whole, 120, break_long_words=False, break_on_hyphens=False).replace("\0", " ")


def renew(name, text):
    """Puts the text between the marks of this name, in each page that has them. Gives how many have."""
    begun, found = f"<!-- time of {name} -->", 0
    for path in pages():
        with open(path, encoding="utf-8") as page:
            whole = page.read()
        paragraphs = whole.split("\n\n")
        for at, was in enumerate(paragraphs):
            if begun in was:
                found += 1
                now = re.sub(rf"{re.escape(begun)}.*?<!-- end -->", lambda _: f"{begun}{text}<!-- end -->", was, flags=re.S)
                paragraphs[at] = wrapped(now) + "\n" * was.endswith("\n")
                print(f"{os.path.relpath(path, ROOT)}: {text}")
        if "\n\n".join(paragraphs) != whole:
            with open(path, "w", encoding="utf-8") as page:
                page.write("\n\n".join(paragraphs))
    return found


def on(date):
    return f"{date.day} {date:%B %Y}"


def of_build():
    with open(LOG, encoding="utf-8", errors="replace") as log:
        lines = log.readlines()
    last = lines[-1].split() if lines else []
    if last[:1] != ["built"]:
        sys.exit(f"{LOG} does not end with what a build took: it failed, or was stopped")
    said = dict(word.partition("=")[::2] for word in last[1:])
    if said["before"] != "0":
        sys.exit(f"{said['before']} of {said['crates']} crates were done before this build: remove crates/*/out, and build again")
    costs = [re.match(r"crate (\S+) seconds=\d+ processor=(\d+)", line) for line in lines]
    with open(os.path.join(ROOT, "bin", "seconds.txt"), "w", encoding="utf-8") as table:
        table.write(HEAD)
        for cost, name in sorted(((int(it[2]), it[1]) for it in costs if it), reverse=True):
            table.write(f"{name} {cost}\n")
    hours, minutes = divmod(round(float(said["processor-minutes"])), 60)
    return (
        f"{float(said['minutes']):.0f} minutes for {said['crates']} crates, and {hours} h {minutes} min of processor time"
        f" ({on(datetime.date.fromisoformat(said['date']))}, {said['processors']} processors, {said['memory']} GB, {said['kit']})"
    )


def of_try():
    begun = time.monotonic()
    words = [os.path.join(ROOT, "bin", "try"), os.path.join(ROOT, "examples", "first.sql")]
    ran = subprocess.run(words, stdin=subprocess.DEVNULL, stdout=subprocess.PIPE)
    took = round(time.monotonic() - begun)
    with open(os.path.join(ROOT, "examples", "first.out"), "rb") as wanted:
        if ran.returncode or ran.stdout != wanted.read():
            sys.exit("bin/try did not give the replies of examples/first.out")
    return f"{took // 60} min {took % 60} s ({on(datetime.date.today())}, {len(os.sched_getaffinity(0))} processors)"


def main():
    measured = {"build": of_build, "try": of_try}
    if len(sys.argv) != 2 or sys.argv[1] not in measured:
        sys.exit(__doc__.strip())
    if not renew(sys.argv[1], measured[sys.argv[1]]()):
        sys.exit(f"no page has the mark <!-- time of {sys.argv[1]} -->")


if __name__ == "__main__":
    main()
