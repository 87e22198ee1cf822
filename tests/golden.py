"""Golden files of floor: what it prints for given files, to the byte.

tests/floor/errors, refusals    NAME.txt   `floor compile NAME.txt` there: nothing printed, exit code 2 or 1, standard error as NAME.out
tests/floor/logs                NAME.log   `floor explain NAME.log` there: nothing printed, exit code 1, standard error as NAME.out
tests/floor/names               NAME.txt   `floor explain` of examples/conveyor.log with these names, likewise with exit code 2
tests/floor/import              NAME.args  `floor import` with these words there: NAME.out, NAME.err and NAME.code
tests/floor/answers             NAME.out   `floor ask` for each day of examples/, `floor explain` for each log
"""
import difflib
import shlex

from runs import ROOT

FOLDER = ROOT / "tests" / "floor"
EXAMPLES = ROOT / "examples"


def failed(runs, folder, code, *words):
    """Each file of a folder that is at fault, given behind these words, and what is due of it."""
    for path in sorted(path for path in (FOLDER / folder).iterdir() if path.suffix in (".txt", ".log")):
        done = runs.run(*words, path.name, cwd=path.parent)
        yield f"{folder}/{path.name}", path.with_suffix(".out"), done.stderr, (done.returncode, done.stdout), (code, b"")


def imported(runs):
    """Each import, by its words as a shell takes them."""
    for path in sorted((FOLDER / "import").glob("*.args")):
        done = runs.run("import", *shlex.split(path.read_text()), cwd=path.parent)
        name = f"import/{path.stem}"
        yield name, path.with_suffix(".out"), done.stdout, (), ()
        yield name, path.with_suffix(".err"), done.stderr, (), ()
        yield name, path.with_suffix(".code"), f"{done.returncode}\n".encode(), (), ()


def examples():
    """The days and logs of examples/."""
    return sorted([*EXAMPLES.glob("*.txt"), *EXAMPLES.glob("*.log")])


def answered(runs):
    """What is answered to each."""
    for path in examples():
        shown = path.relative_to(ROOT)
        done = runs.run(*(["ask", shown] if path.suffix == ".txt" else ["explain", shown]), cwd=ROOT)
        yield f"answers/{path.name}", FOLDER / "answers" / f"{path.name}.out", done.stdout, (done.returncode, done.stderr), (0, b"")


def files(runs):
    """A name, the golden file, what is printed, and what else came of the run and is due."""
    yield from failed(runs, "errors", 2, "compile")
    yield from failed(runs, "refusals", 1, "compile")
    yield from failed(runs, "logs", 1, "explain")
    yield from failed(runs, "names", 2, "explain", EXAMPLES / "conveyor.log")
    yield from imported(runs)
    yield from answered(runs)


def written(runs):
    """Writes every golden file anew whose run ended as is due: how many differ from before, and what ended otherwise."""
    changed, wrong = 0, []
    for name, path, printed, came, due in files(runs):
        if came != due:
            wrong.append(f"{name}: {came} in place of {due}")
        elif not path.exists() or path.read_bytes() != printed:
            changed += 1
            path.parent.mkdir(parents=True, exist_ok=True)
            path.write_bytes(printed)
    return changed, wrong


def parted(golden, printed):
    """The lines in which two texts differ."""
    lines = [text.decode(errors="replace").splitlines() for text in (golden, printed)]
    return "\n".join(line for line in difflib.unified_diff(*lines, "golden", "printed", "", "", 0, "") if not line.startswith("@@"))


def tried(runs):
    """How many golden files there are in each folder, and the differences."""
    count, wrong, known = {}, [], set()
    for name, path, printed, came, due in files(runs):
        folder = name.split("/")[0]
        count[folder] = count.get(folder, 0) + 1
        known.add(path)
        golden = path.read_bytes() if path.exists() else None
        if golden != printed or came != due:
            ended = f"{came} in place of {due}" if came != due else "another text"
            wrong.append(f"{name}: {ended}\n{parted(golden or b'', printed)}")
    left = {path for path in FOLDER.rglob("*") if path.suffix in (".out", ".err", ".code")} - known
    return count, wrong + [f"{path}: of no file" for path in sorted(left)]
