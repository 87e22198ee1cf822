"""The command line of floor: its exit codes, and that no input makes it fail in another way."""
import os
import pathlib
import resource
import tempfile

from days import made
from frames import Draw, frames_of, log_of
from runs import ROOT

LOG, DAY = ROOT / "examples" / "conveyor.log", b"station a initially 1\nevent a 2\nquestion a is 2\n"
WIDE = b"station a initially 1\nquestion " + b" and ".join([b"(a is 1 or a is 2)"] * 5) + b"\n"
DEEP = 100000
SECONDS, MEMORY = 5.0, 1 << 30  # the most that a run takes, of processor time and of memory
WORDS = [b"\n", b" ", b"#", b"(", b")", b"..", b"silent", b" after ", b"65536", b"-1", b"\xc3", b"\0", b"not ", b" and "]
ROWS, COLUMNS = 24, 100  # of a screen


# The exit code that is due for words of the command line and standard input.
ENDINGS = {
    0: [("--help", b""), ("-h", b""), ("help", b""), ("compile -", DAY), ("ask -", DAY), ("ask --json -", DAY), (f"explain {LOG}", b""),
        (f"explain --words {LOG}", b""), ("explain -", LOG.read_bytes())],
    1: [("explain -", b""), ("explain -", b"10F0\n"), ("explain -", b"\xff\n"), ("explain -", b"0" * 20000), ("compile -", WIDE),
        ("ask -", WIDE)],
    2: [("", b""), ("bogus", b""), ("--bogus", b""), ("compile", b""), ("ask", b""), ("explain", b""), ("compile --bogus -", DAY),
        ("ask --words -", DAY), (f"explain --bogus {LOG}", b""), (f"explain --json --words {LOG}", b""), ("explain a b c", b""),
        ("compile - -", DAY), ("compile - -o", DAY), ("compile -", b""), ("compile -", b"\xff\n"), (f"explain {LOG} -", b"bogus\n"),
        ("explain - -", LOG.read_bytes()), (f"ask {LOG}", b""), (f"compile {LOG}", b""), ("import", b""), ("import bogus -", b""),
        ("import shiviz", b""), (f"picture {LOG}", b""), (f"picture {LOG} -o", b"")],
    3: [("compile absent.txt", b""), ("ask absent.txt", b""), ("explain absent.log", b""), (f"explain {LOG} absent.txt", b""),
        ("compile /", b""), ("import jsonl absent.jsonl", b""), (f"picture {LOG} -o /absent/page.html", b""),
        (f"picture {LOG} -o /dev/full", b""),
        ("compile - -o /absent/day.log", DAY), ("compile - -o /dev/full", DAY)],
}


def fault(done, took=0.0):
    """What no run may come to."""
    if done.returncode not in (0, 1, 2, 3):
        return f"exit code {done.returncode}"
    if b"panicked" in (done.stderr or b""):
        return "a panic"
    if done.returncode and not done.stderr and done.stderr is not None:
        return f"exit code {done.returncode} and nothing said"
    return f"{took:.1f} seconds" if took > SECONDS else None


def ended(runs):
    """The differences in exit codes, and in what is printed where nothing is answered."""
    for code, given in ENDINGS.items():
        for words, data in given:
            done = runs.run(*words.split(), data)
            if done.returncode != code or fault(done) or (code and done.stdout) or (not code and done.stderr):
                yield f"floor {words}, given {data[:40]}: {done.returncode} in place of {code}, {done.stdout[:80]}, {done.stderr[:200]}"


def screen(runs):
    for words in (["--help"], ["import", "--help"]):
        lines = runs.run(*words).stdout.decode().splitlines()
        wide = [line for line in lines if len(line) > COLUMNS]
        if not lines or len(lines) > ROWS or wide:
            yield f"{' '.join(words)} has {len(lines)} lines, {len(wide)} of them over {COLUMNS} columns"


def shut(runs):
    """Standard output and standard error that take nothing."""
    for words, data in [("--help", b""), ("compile -", DAY), ("ask -", DAY), (f"explain {LOG}", b""), (f"explain --json {LOG}", b"")]:
        with open("/dev/full", "wb") as full:
            done = runs.run(*words.split(), data, capture_output=False, stdout=full, stderr=-1)
        if done.returncode != 3 or fault(done):
            yield f"floor {words} to /dev/full: exit code {done.returncode}, {done.stderr}"
        reader, writer = os.pipe()
        os.close(reader)
        done = runs.run(*words.split(), data, capture_output=False, stdout=writer, stderr=-1)
        os.close(writer)
        if done.returncode not in (0, 3) or b"panicked" in done.stderr:
            yield f"floor {words} to a closed pipe: exit code {done.returncode}, {done.stderr}"
    with open("/dev/full", "wb") as full:
        for words, code in [("bogus", 2), ("explain absent.log", 3)]:
            done = runs.run(*words.split(), b"", capture_output=False, stdout=-1, stderr=full)
            if done.returncode != code:
                yield f"floor {words}, standard error to /dev/full: exit code {done.returncode}"


def endless(runs):
    """A file without an end."""
    for words in ("compile", "ask", "explain", "import jsonl", "import shiviz"):
        done = runs.run(*words.split(), "/dev/zero", b"", preexec_fn=lambda: resource.setrlimit(resource.RLIMIT_AS, (MEMORY, MEMORY)))
        if done.returncode == 0 or fault(done):
            yield f"floor {words} /dev/zero: exit code {done.returncode}, {done.stderr}"


# HOSTILE

def nested():
    """Formulas, clocks and names deeper and longer than any stack or line."""
    head = b"station a initially 1\nquestion "
    for opened in (b"(", b"not ", b"possibly ", b"(not ", b"not ("):
        yield "compile", head + opened * DEEP + b"a is 1" + b")" * (DEEP if b"(" in opened else 0) + b"\n"
        yield "compile", head + opened * DEEP
    yield "compile", head + b" and ".join([b"a is 1"] * DEEP) + b"\n"
    yield "compile", head + b"a is 1" + b")" * DEEP + b"\n"
    yield "compile", b"station " + b"a" * DEEP + b" initially 1\n"
    yield "compile", b"station a initially " + b"9" * DEEP + b"\n"
    yield "compile", b"station a initially 1\n" * DEEP
    yield "compile", b"station a initially 1\n" + b"event a 1 after a 1\n" * DEEP
    yield "compile", b"station a initially 1\nevent a 1" + b" after a 1" * DEEP + b"\n"
    yield "compile", b"bogus\n" * DEEP
    yield "compile", b"\n" * DEEP
    yield "compile", "\ufeffstation a initially 1\r\nquestion a is 1\r\n".encode()
    for kind in ("shiviz", "jsonl"):
        for again in (b"[", b'{"host":', b'a {"a":', b"\n", b"a\n"):
            yield f"import {kind}", again * DEEP
        yield f"import {kind}", b'{"host":"a","clock":' + b"[" * DEEP
        yield f"import {kind}", b'a {"a":' + b"1" * DEEP + b"}\nx\n"
        yield f"import {kind}", b'"' + b"\\u" * DEEP


def mutated(d, data):
    """Bytes with a few of them changed, dropped, doubled or moved."""
    data = bytearray(data)
    for _ in range(1 + d.below(4)):
        at, size = d.below(len(data) + 1), 1 + d.below(12)
        kind = d.below(5)
        if kind == 0:
            data[at:at + size] = bytes(d.below(256) for _ in range(d.below(4)))
        elif kind == 1:
            del data[at:at + size]
        elif kind == 2:
            data[at:at] = data[at:at + 4 * size] or b"\n"
        elif kind == 3:
            to = d.below(len(data) + 1)
            data[at:at] = data[to:to + size]
        else:
            data[at:at] = d.pick(WORDS)
    return bytes(data)


def drawn(d):
    """Random bytes, and days, logs and logs of other tools that are nearly right."""
    for k in range(160):
        day = made(1000 + k, 1 + k % 4, k % 8, k % 3, k % 2 == 0, 3)
        words, frames = mutated(d, day.spoken(d).encode()), frames_of(day.log())
        at = d.below(len(frames))
        frames[at] = mutated(d, bytes(frames[at])) if d.below(4) else frames[at][:1] + [d.below(9) for _ in frames[at][1:]]
        yield "compile", words
        yield "ask", words
        yield f"explain {LOG}", words
        yield "explain", mutated(d, day.log())
        yield "explain", log_of(frames)
        yield "explain --words", log_of(frames)
    for k in range(60):
        noise = bytes(d.below(256) for _ in range(d.below(300)))
        for command in ("compile", "explain", "import shiviz", "import jsonl"):
            yield command, noise
    kinds = {".log": "shiviz", ".jsonl": "jsonl"}
    others = [path for path in sorted((ROOT / "tests" / "floor" / "import").iterdir()) if path.suffix in kinds]
    for path in [d.pick(others) for _ in range(160)]:
        yield f"import {kinds[path.suffix]}", mutated(d, path.read_bytes())


def worked():
    """The processor time of all runs so far."""
    used = resource.getrusage(resource.RUSAGE_CHILDREN)
    return used.ru_utime + used.ru_stime


def hostile(runs, part, parts):
    """How many hostile inputs of a part of them were tried by each exit code, and what failed."""
    codes, wrong = {}, []
    with tempfile.TemporaryDirectory() as folder:
        for command, data in [*nested(), *drawn(Draw(1))][part::parts]:
            start = worked()
            done = runs.run(*command.split(), "-", data, cwd=pathlib.Path(folder))
            codes[done.returncode] = codes.get(done.returncode, 0) + 1
            told = fault(done, worked() - start)
            if told:
                wrong.append(f"floor {command} -, given {data[:300]!r}: {told}, {done.stderr[:200]}")
    return codes, wrong
