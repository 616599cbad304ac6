#!/usr/bin/env python3
"""Writes docs/CRATES.md, the drawing of the crates, from crates.txt.

    tools/crates_page.py            writes the page
    tools/crates_page.py --check    fails where the page isn't what it would write
"""
import pathlib
import sys

TOP = pathlib.Path(__file__).resolve().parent.parent
PAGE = TOP / "docs" / "CRATES.md"
HEAD = """# The crates, one above the other

Made by `tools/crates_page.py` from `crates.txt`; don't edit it by hand. A crate stands on crates of lower storeys
alone. Behind each crate are those that it stands on and that none of its others reaches already; crates of the kit
are left out. What each crate does is told in ARCHITECTURE.md.
"""


def read_crates():
    """The crates, each with those of the repository that it stands on."""
    lines = [line.split("#")[0].strip() for line in (TOP / "crates.txt").read_text().splitlines()]
    listed = {name.split()[0]: rest.split() for name, rest in (line.split(":", 1) for line in lines if line)}
    return {name: {it for it in below if it in listed} for name, below in listed.items()}


def reach_of(crates):
    """All that each crate reaches."""
    reach = {}

    def of(name):
        if name not in reach:
            reach[name] = set(crates[name]).union(*(of(it) for it in crates[name]))
        return reach[name]

    for name in crates:
        of(name)
    return reach


def page():
    crates = read_crates()
    reach = reach_of(crates)
    storeys = {}
    for name in sorted(crates, key=lambda it: len(reach[it])):
        storeys[name] = 1 + max((storeys[it] for it in crates[name]), default=-1)
    text = [HEAD]
    width = max(map(len, crates))
    for storey in range(max(storeys.values()), -1, -1):
        rows = []
        for name in sorted(it for it in crates if storeys[it] == storey):
            direct = sorted(it for it in crates[name] if not any(it in reach[other] for other in crates[name]))
            rows.append(f"    {name:{width}}  {' '.join(direct)}".rstrip())
        text.append(f"storey {storey}\n\n" + "\n".join(rows) + "\n")
    return "\n".join(text)


def main():
    made = page()
    if sys.argv[1:] == ["--check"]:
        if not PAGE.exists() or PAGE.read_text() != made:
            sys.exit("docs/CRATES.md is stale: run tools/crates_page.py")
    else:
        PAGE.write_text(made)


main()
