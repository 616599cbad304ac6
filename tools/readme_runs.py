#!/usr/bin/env python3
"""Runs each command that README.md and docs/TUTORIAL.md show, and fails where it doesn't print what stands there.

A command is an indented line `$ ./jichallay WORDS` (with `< FILE` for what it reads), and what it prints is the indented
lines behind it. An indented line without `$` is run too, with a script of tools/ behind `|` and the file that it writes
behind `>`, and has to end well. README's program in Python has to print the two frames that its comments tell. The
program is the one that `rt ci` built, or where a source has changed since, or
there is none, the one that `rt try` builds for each command. Files are named from the top of the repository, or were
written by a line before.
"""
import pathlib
import shlex
import subprocess
import sys
import tempfile

TOP = pathlib.Path(__file__).resolve().parent.parent
FOLDER = TOP / "crates" / "viewer_program"
PROGRAM = FOLDER / "out" / "viewer_program"
SHOWN, PLAIN = "    $ ./jichallay ", "    ./jichallay "


def shown_runs(lines):
    """The commands with what is shown of each."""
    runs, shown = [], None
    for line in lines:
        if line.startswith(SHOWN):
            shown = []
            runs.append((line[len(SHOWN):], shown))
        elif shown is not None and line.startswith("    "):
            shown.append(line[4:])
        else:
            shown = None
    return runs


def in_place(word, folder=TOP):
    """A file by its whole name: one of the folder, or of the repository."""
    return next((str(it / word) for it in (folder, TOP) if (it / word).is_file()), word)


def is_fresh():
    """Whether the program that `rt ci` built is there, and no source is newer."""
    sources = [it for part in ("src", "specs", "proofs") for it in TOP.glob(f"crates/*/{part}/**/*")]
    return PROGRAM.is_file() and all(it.stat().st_mtime <= PROGRAM.stat().st_mtime for it in sources)


START = [PROGRAM] if is_fresh() else ["rt", "try", "--"]


def ran(words, script=b""):
    """What the program prints, where it ends well."""
    return subprocess.run([*START, *words], cwd=FOLDER, input=script, stdout=subprocess.PIPE, stderr=subprocess.PIPE,
                          check=True).stdout


def printed(command):
    """What a command prints to its standard output."""
    words, _, source = command.partition(" < ")
    script = (TOP / source).read_bytes() if source else b""
    return ran(map(in_place, shlex.split(words)), script).decode().splitlines()


def written(command, folder):
    """Runs a command whose output goes through a script of tools/, if one is named, and into a file of the folder."""
    left, _, target = command.partition(" > ")
    left, _, script = left.partition(" | ")
    words, _, source = left.partition(" < ")
    found = ran([in_place(word, folder) for word in shlex.split(words)], (TOP / source).read_bytes() if source else b"")
    if script:
        words = [sys.executable, *(in_place(word, folder) for word in script.split())]
        found = subprocess.run(words, input=found, stdout=subprocess.PIPE, check=True).stdout
    (folder / target).write_bytes(found)


def wrong_runs(page):
    """How many commands the page shows with what they print, how many print something else, and how many more ran."""
    lines = (TOP / page).read_text().splitlines()
    runs, wrong = shown_runs(lines), 0
    for command, shown in runs:
        found = printed(command)
        if found != shown:
            wrong += 1
            print(f"{page}: `{command}` prints\n" + "\n".join(found), file=sys.stderr)
    plain = [line[len(PLAIN):] for line in lines if line.startswith(PLAIN)]
    with tempfile.TemporaryDirectory() as folder:
        for command in plain:
            written(command, pathlib.Path(folder))
    print(f"{page}: {len(runs) - wrong} commands print what is shown, {wrong} don't, and {len(plain)} more end well")
    return wrong


def drives():
    """Whether README's program in Python shows two triangles and then four. It wants the program that `rt ci` built."""
    code = (TOP / "README.md").read_text().split("```python\n")[1].split("```")[0]
    words = [sys.executable, "-c", code.replace("./jichallay", str(PROGRAM))]
    shown = subprocess.run(words, cwd=TOP, stdout=subprocess.PIPE, timeout=60, check=True).stdout.decode().splitlines()
    found = [line.split("'")[1].split()[-1] for line in shown]
    print(f"README.md: its program in Python shows {' and then '.join(found)} triangles")
    return found == ["2", "4"]


def main():
    wrong = sum(wrong_runs(page) for page in ("README.md", "docs/TUTORIAL.md"))
    return 1 if wrong or (is_fresh() and not drives()) else 0


if __name__ == "__main__":
    sys.exit(main())
