#!/usr/bin/env python3
"""What the pages show of the command floor and of the examples in Python: each command is run again and has to print what stands below it.

Usage: shown.py [FLOOR]        (FLOOR: the built command, target/cargo/release/floor by default)

A command is a line `$ ./floor.sh WORDS` or `$ python3 examples/FILE` of an indented block, what it prints the lines below it. `cat FILE`
shows a file.
"""
import pathlib
import shlex
import subprocess
import sys

ROOT = pathlib.Path(__file__).resolve().parent.parent
PAGES = ["README.md", "docs/FLOOR.md"]
INDENT = "    "


def commands(text):
    """Each command of a page with the lines below it."""
    out, lines = [], None
    for line in text.splitlines():
        if line.startswith(INDENT + "$ "):
            lines = []
            out.append((line[len(INDENT) + 2:], lines))
        elif line and not line.startswith(INDENT):
            lines = None
        elif lines is not None:
            lines.append(line[len(INDENT):])
    return [(command, "\n".join(lines).strip("\n")) for command, lines in out]


def printed(*command):
    done = subprocess.run(command, cwd=ROOT, capture_output=True, text=True, timeout=60)
    return done.stdout + done.stderr


def told(floor, name, *words):
    """What a command prints; none of what is not run here."""
    if name == "./floor.sh":
        return printed(floor, *words)
    if name == "python3":
        return printed(sys.executable, "-B", *words)
    return (ROOT / words[0]).read_text() if name == "cat" else None


def main(floor):
    wrong, shown = [], 0
    for page in PAGES:
        for command, below in commands((ROOT / page).read_text()):
            text = told(floor, *shlex.split(command))
            if text is None:
                continue
            shown += 1
            if text.strip("\n") != below:
                wrong.append(f"{page}: `{command}` does not print what is shown, but\n{text}")
    print("\n".join(wrong) or f"{shown} commands and files of {' and '.join(PAGES)} are as shown")
    return 1 if wrong or not shown else 0


if __name__ == "__main__":
    sys.exit(main(sys.argv[1] if len(sys.argv) > 1 else str(ROOT / "target/cargo/release/floor")))
