#!/usr/bin/env python3
"""Whether the bindings of the static library say the same: the C header and its example, the Python example, the crate `moment`.

Usage: bindings.py      after `tools/build.sh exports` and `cargo build --release -p compare`; exit code 1 on any difference
Declarations and limits are compared with crates/exports and crates/model, wherever they stand. examples/ask.c is compiled by the command
that it gives, and what it and examples/ask.py print for the logs of examples/ and for hostile input is compared with each other, with
`compare forecast` and with Holds. What Merge makes of two logs is compared in C, C++ and Python, and with what it promises.
"""
import ctypes
import itertools
import pathlib
import re
import subprocess
import sys
import tempfile

from frames import ONE, atom, clear, in_turn, log_of, message, panel, wrong_check

ROOT = pathlib.Path(__file__).resolve().parent.parent
ARCHIVE, COMPARE, ASK = ROOT / "target/staticlib/libexports.a", ROOT / "target/cargo/release/compare", ROOT / "target/ask"
EXAMPLES = sorted((ROOT / "examples").glob("*.log"))
WARNINGS = ["-Wall", "-Wextra", "-Wpedantic", "-Werror", "-Wconversion"]
READ, WRITTEN, NUMBER = "const uint8_t *", "uint8_t *", "size_t"
STEP = 5  # bytes between two edits of a log
LENT = 0xA5  # what an output holds before the call

sys.dont_write_bytecode = True
sys.path.insert(0, str(ROOT / "examples"))
import ask  # noqa: E402

checks = wrong = 0


def due(what, got, expected):
    """One check: what there is, and what is due."""
    global checks, wrong
    checks += 1
    if got != expected:
        wrong += 1
        print(f"{what}: {expected!r} is due\n  but there is {got!r}")


def run(*command, **more):
    return subprocess.run([str(word) for word in command], cwd=ROOT, capture_output=True, timeout=60, **more)


# DECLARATIONS: for each function the types, as in C, and names of its parameters

def text_of(*names):
    return "".join((ROOT / name).read_text() for name in names)


def in_c(text):
    found = re.findall(r"uint64_t (moment_\w+)\(([^)]*)\);", re.sub(r"/\*.*?\*/", "", text, flags=re.S))
    return {name: [re.fullmatch(r"(.*?) ?(\w+)", " ".join(p.split())).groups() for p in of.split(",")] for name, of in found}


def in_rust(text, pattern, types):
    """Likewise, by the types that one of Rust stands for: a slice for a pointer and a length."""
    functions = {}
    for name, of in re.findall(pattern, text):
        pairs = [p.split(": ") for p in re.split(r",\s*", of.strip().rstrip(","))]
        functions[name] = [(t, n + "_len" * k) for n, kind in pairs for k, t in enumerate(types[kind])]
    return functions


def declared(place, functions, proved):
    """The same functions in the same order, each with the same parameters."""
    due(f"functions of {place}", [*functions], [*proved])
    for name in proved:
        due(f"{name} of {place}", functions.get(name), proved[name])


def declarations():
    """The proved code's functions are those declared, in all places, and those of the archive."""
    sources = sorted(str(path.relative_to(ROOT)) for path in (ROOT / "crates/exports/src").glob("*.rt"))
    slices = {"&[u8]": [READ, NUMBER], "&mut [u8]": [WRITTEN, NUMBER], "usize": [NUMBER]}
    proved = in_rust(text_of(*sources), r'pub extern "C" fn (moment_\w+)\(([^)]*)\) -> u64', slices)
    due("functions of crates/exports", len(proved), text_of(*sources).count("#[unsafe(no_mangle)]"))
    for name in ["moment/include/moment.h", "docs/ASSUMPTIONS.md"]:
        declared(name, in_c(text_of(name)), proved)
    block = re.search(r"^library! \{\n(.*?)^\}", text_of("moment/src/lent.rs"), re.M | re.S)[1]
    pointers = {"*const u8": [READ], "*mut u8": [WRITTEN], "usize": [NUMBER]}
    declared("moment/src/lent.rs", in_rust(block, r"fn (moment_\w+)\(([^)]*)\) -> u64;", pointers), proved)
    for name, parameters in ask.CALLS.items():
        names = [n for p in parameters for n in ([p] if p == "question" else [p, f"{p}_len"])]
        due(f"{name} of examples/ask.py", names, [n for _, n in proved[name]])
    members = re.findall(r'"([^"]+)"', re.search(r"^members = \[(.*)\]", text_of("Cargo.toml"), re.M)[1])
    code = [path for member in members for path in (ROOT / member).glob("**/*.rs")]
    found = [path for path in code if any(f"fn {name}(" in path.read_text() for name in proved)]
    due("files with declarations in Rust", found, [ROOT / "moment/src/lent.rs"])
    symbols = [line.split()[-2:] for line in run("nm", ARCHIVE).stdout.decode().splitlines() if line and not line.endswith(":")]
    due("functions of the archive", sorted(n for kind, n in symbols if kind == "T"), sorted(proved))
    due("what the archive asks for", sorted(n for kind, n in symbols if kind == "U"), ["memcpy", "memset"])
    due("data of the archive that calls could keep", [n for kind, n in symbols if kind not in "TtrU"], [])


def limits():
    """The limits of crates/model are those of the header, the crate and ask.py."""
    model = text_of("crates/model/specs/Limits.antt")
    record = re.search(r"^limits = record \{(.*)\}", model, re.M)[1]
    numbers = {name: int(n) for name, n in re.findall(r"(\w+) = (\d+)", record) + re.findall(r"^(\w+) = (\d+)$", model, re.M)}
    named = {"STATIONS": "stations", "EVENTS": "events", "MESSAGES": "messages", "QUESTIONS": "questions", "LOG": "bytes", "LIST": "list",
             "BARS": "barspace_size", "LINE": "line_size"}
    proved = {name: numbers[of] for name, of in named.items()}
    proved["CELLS"] = numbers["most_held"] * proved["STATIONS"] * (proved["EVENTS"] + 1)
    header = {name: int(n) for name, n in re.findall(r"MOMENT_(\w+) = (\d+)", text_of("moment/include/moment.h"))}
    due("limits of moment.h", header, proved)
    crate = {}
    for name, value in re.findall(r"pub const (\w+): usize = (.*);", text_of("moment/src/lib.rs")):
        crate[name] = eval(value, {}, crate)
    due("limits of moment/src/lib.rs", crate, proved)
    due("limits of ask.py", {name: getattr(ask, name) for name in proved if hasattr(ask, name)},
        {name: proved[name] for name in ["LOG", "LIST", "BARS", "LINE"]})


# PROGRAMS

def compiled():
    """ask.c by the command that it gives, the header in C++ with what ask.c does not call, and the crate's example."""
    command = re.search(r"^ *(gcc .*) \*/$", text_of("examples/ask.c"), re.M)[1]
    made = run(*command.split(), *WARNINGS)
    due("ask.c compiled", (made.returncode, made.stderr), (0, b""))
    with tempfile.TemporaryDirectory() as folder:
        program = f"{folder}/program"
        made = run("g++", "-std=c++17", *WARNINGS, "-I", "moment/include", "tests/bindings.cc", ARCHIVE, "-o", program)
        due("moment.h in C++", (made.returncode, made.stderr), (0, b""))
        due("calls from C++", made.returncode or run(program).returncode, 0)
    due("the example of the crate moment", run("cargo", "test", "--release", "--locked", "--quiet", "--doc", "-p", "moment").returncode, 0)


def wide():
    """The most events at the most stations, and questions that take the most cells known of, 73,440, or nest as deep as any."""
    ors = [[4, *atom(s, 1, 2), *atom(s + 1, 0, 1)] for s in range(0, 8, 2)]
    held = [3, *atom(), 3, *atom(1), 3, *atom(2), 3, 3, 3, 3, *sum(ors, []), *atom(3)]
    questions = [held, [2] * 31 + atom(), [6, 2] * 15 + [5] + clear()]
    events = in_turn(8, 254, lambda i: i % 3)
    return log_of([[0x10, 8] + [0] * 16] + events + [[0x30] + q for q in questions])


def inputs():
    """Files by name: the logs of examples/, and hostile ones."""
    yield from ((path.name, path.read_bytes()) for path in EXAMPLES)
    log = (ROOT / "examples/conveyor.log").read_bytes()
    yield "empty", b""
    yield "an empty line", b"\n"
    yield "16,384 bytes", b"0" * ask.LOG
    yield "16,385 bytes", b"0" * (ask.LOG + 1)
    yield "16,384 empty lines", b"\n" * ask.LOG
    yield "every byte", bytes(range(256)) * 64
    yield "CR", log.replace(b"\n", b"\r\n")
    yield "lower case", log.lower()
    yield "a zero byte behind", log + b"\0"
    yield "a header alone", log_of([ONE])
    yield "98 signs", log_of([ONE, [0x30] + [2] * 98])
    yield "16 questions", log_of([ONE] + [[0x30] + atom()] * 16)
    yield "17 questions", log_of([ONE] + [[0x30] + atom()] * 17)
    yield "8 stations, 254 events", wide()
    yield "a fault behind 254 events", wide() + b"\n"
    either = [4, 3, *atom(0, 1, 1), *atom(1, 0, 0), 3, *atom(0, 0, 0), *atom(1, 1, 1)]
    yield "two moments", log_of([[0x10, 2, 0, 0, 0, 0], [0x20, 0, 0, 1, 1, 0], [0x20, 1, 0, 1, 0, 1], [0x30, *either]])
    yield from ((f"conveyor.log, {n} bytes", log[:n]) for n in range(1, len(log), STEP))
    yield from ((f"conveyor.log, byte {n} changed", log[:n] + bytes([log[n] ^ 1]) + log[n + 1:]) for n in range(0, len(log), STEP))


def confirmed(name, library, log, text):
    """The words of each answer say what its line does, and Holds says so too."""
    lines = text.splitlines()
    for question, (line, words) in enumerate(zip(lines[1::3], lines[2::3])):
        start, moments = re.fullmatch(r"at the start: (yes|no); (?:greatest moments: (.*)|never, .*)", words).groups()
        cuts = [[int(k) for k in m.split(",")] for m in re.findall(r"\(([\d,]+)\)", moments or "")]
        said = f"40{start == 'yes':02X}{len(cuts):02X}" + "".join(f"{k:02X}" for cut in cuts for k in cut)
        due(f"{name}: words of question {question}", said, line[:-10])
        stations = library.read(log).stations
        due(f"{name}: start of question {question}", library.holds(log, question, [0] * stations), start == "yes")
        due(f"{name}: moments of question {question}", [library.holds(log, question, cut) for cut in cuts], [True] * len(cuts))


def same(library):
    """Both programs on every input; ask.py as a program of its own on those that are no edits of another."""
    with tempfile.TemporaryDirectory() as folder:
        file = pathlib.Path(folder) / "file.log"
        for name, log in inputs():
            file.write_bytes(log)
            text, code = ask.told(library, log)
            got = run(ASK, file)
            due(f"{name}: ask.c", (got.stdout.decode(), got.stderr, got.returncode), (text, b"", code))
            lines = [line for line in text.splitlines() if not line.startswith("at the start: ")]
            due(f"{name}: lines", lines, run(COMPARE, "forecast", file).stdout.decode().splitlines())
            due(f"{name}: exit code", code, int(text.startswith("refused ")))
            if code == 0:
                confirmed(name, library, log, text)
            if not name.startswith("conveyor.log,"):
                got = run(sys.executable, "examples/ask.py", input=log)
                due(f"{name}: ask.py", (got.stdout.decode(), got.stderr, got.returncode), (text, b"", code))


# MERGE

# The worked example of docs/FORMAT.md: two logs, and what each makes with the other behind it.
PLAIN = b"""100200000000EE
200000050100DA
200100010001DD
200100020102DA
2500010102D7
3003010000050005010100010001BE
"""
PANELS = b"""11020000000700000008DE
2000000500090100D1
2001000100080001D5
2001000200090102D1
2500010100D9
30080100000009BE
"""
PANELS_BEHIND = b"""110400000000000000000000000700000008DC
20000005000001000000DA
20010001000000010000DD
20010002000001020000DA
20020005000900000100CF
20030001000800000001D3
20030002000900000102CF
2500010102D7
2502010300D5
3003010000050005010100010001BE
"""
PLAIN_BEHIND = b"""110400000007000000080000000000000000DC
20000005000901000000D1
20010001000800010000D5
20010002000901020000D1
20020005000000000100D8
20030001000000000001DB
20030002000000000102D8
2500010100D9
2502010302D3
30080100000009BE
"""


def of_size(stations, events, messages):
    """A log of so many stations, events in turn and messages that never came."""
    return log_of([[0x10, stations] + [0, 0] * stations, *in_turn(stations, events, lambda i: i % 3), *[message(0, 1, 1)] * messages])


def pairs():
    """Two logs by name, the bytes lent as output, and what is due where it is given: a log, or a refusal's number and line."""
    yield "the example", PLAIN, PANELS, ask.LOG, PANELS_BEHIND
    yield "the example, exchanged", PANELS, PLAIN, ask.LOG, PLAIN_BEHIND
    for one, two in itertools.product(EXAMPLES, repeat=2):
        yield f"{one.name} and {two.name}", one.read_bytes(), two.read_bytes(), ask.LOG, None
    four, most, lines = of_size(4, 127, 32), of_size(4, 254, 0), PLAIN.splitlines(True)
    yield "all that a log may hold", four, four, ask.LOG, None
    yield "9 stations", four, of_size(5, 1, 0), ask.LOG, (17, 0)
    yield "255 events", four, of_size(4, 128, 32), ask.LOG, (18, 0)
    yield "65 messages", four, of_size(4, 127, 33), ask.LOG, (18, 0)
    yield "9 stations and 255 events, nothing lent", most, of_size(5, 1, 0), 0, (17, 0)
    yield "255 events, nothing lent", most, of_size(4, 1, 0), 0, (18, 0)
    yield "16,383 bytes lent", PLAIN, PANELS, ask.LOG - 1, (12, 0)
    yield "nothing lent", PLAIN, PANELS, 0, (12, 0)
    yield "first, line 3", b"".join(lines[:2]) + wrong_check([0x20, 1, 0, 1, 0, 1]), most, 0, (3, 3)
    yield "second, line 7", PLAIN, PLAIN + b"G\n", 0, (2, 7)
    yield "second, its question", PLAIN, PLAIN + log_of([[0x30] + panel(2)]), ask.LOG, (8, 7)
    yield "second, its question, of a station of the first", of_size(4, 8, 0), PLAIN + log_of([[0x30] + atom(3)]), ask.LOG, (8, 7)
    yield "both, the first's later", PLAIN + b"00\n", b"\n", ask.LOG, (2, 7)
    yield "first empty", b"", PLAIN, ask.LOG, (4, 1)
    yield "second empty", PLAIN, b"", ask.LOG, (4, 1)
    yield "first too long", b"0" * (ask.LOG + 1), b"", ask.LOG, (1, 0)
    yield "second too long", most, b"0" * (ask.LOG + 1), ask.LOG, (1, 0)


def in_python(library, first, second, lent):
    """The log, or the refusal, in words; and whether all bytes past those written are as lent."""
    out = ctypes.create_string_buffer(bytes([LENT]) * lent, lent)
    try:
        length, told = library._call("moment_merge", first, second, out), None
    except ask.Refusal as refusal:
        length, told = 0, f"{refusal}\n".encode()
    due("output past what is written", set(out.raw[length:]) <= {LENT}, True)
    return (told or out.raw[:length], int(told is not None))


def promised(name, library, first, second, log):
    """A merged log is accepted, its counts add up, and each answer is the first's, with all of the second's events behind its moments."""
    one, two, both = (library.read(data) for data in (first, second, log))
    due(f"{name}: counts", both[:3], (one.stations + two.stations, one.events + two.events, one.questions))
    ends = [0] * two.stations
    for frame in library.frames(second):
        if frame[0] == 0x20:
            ends[frame[1]] += 1
    for question in range(one.questions):
        alone, merged = library.answer(first, question), library.answer(log, question)
        due(f"{name}: start of question {question}", merged.start, alone.start)
        due(f"{name}: moments of question {question}", merged.moments, [(*moment, *ends) for moment in alone.moments])
    due(f"{name}: written again", library.write(library.frames(log)), log)


def merges(library):
    """Every pair in C, C++ and Python."""
    with tempfile.TemporaryDirectory() as folder:
        folder, met = pathlib.Path(folder), set()
        for language in (["gcc", "-std=c99"], ["g++", "-x", "c++", "-std=c++17"]):
            made = run(*language, *WARNINGS, "-I", "moment/include", "tests/merge.c", "-x", "none", ARCHIVE, "-o", folder / language[0])
            due(f"merge.c by {language[0]}", (made.returncode, made.stderr), (0, b""))
        for name, first, second, lent, expected in pairs():
            told, refused = in_python(library, first, second, lent)
            met.add(refused and int(told.split()[1].rstrip(b",")))
            if expected is not None:
                due(name, told, expected if isinstance(expected, bytes) else b"refused %d, line %d\n" % expected)
            for k, data in enumerate((first, second)):
                (folder / f"{k}.log").write_bytes(data)
            for compiler in ("gcc", "g++"):
                got = run(folder / compiler, folder / "0.log", folder / "1.log", lent)
                due(f"{name}: by {compiler}", (got.stdout, got.stderr, got.returncode), (told, b"", refused))
            if not refused:
                due(f"{name}: lent by ask.py", library.merge(first, second), told)
                promised(name, library, first, second, told)
        due("what came of two logs", met >= {0, 1, 2, 3, 4, 8, 12, 17, 18}, True)


def failures(library):
    """What is no log: both programs say so with the same words and exit code, and the module by exceptions."""
    log, null = EXAMPLES[0], "/dev/null"
    for code, words, to in [(3, ["nowhere.log"], null), (3, ["examples"], null), (2, [log, log], null), (3, [log], "/dev/full"),
                            (1, ["/dev/zero"], null)]:
        with open(to, "wb") as out:
            ends = [subprocess.run([*program, *words], cwd=ROOT, stdout=out, stderr=subprocess.PIPE, timeout=60)
                    for program in ([ASK], [sys.executable, "examples/ask.py"])]
        due(f"ask.c {words} {to}", ends[0].returncode, code)
        due(f"ask.py {words} {to}", (ends[1].returncode, ends[1].stderr), (ends[0].returncode, ends[0].stderr))
    data = log.read_bytes()
    for number, question, cut in [(10, 9, [0, 0, 0]), (10, -1, []), (10, 2**64, []), (13, 0, []), (13, 0, [0] * 4), (13, 0, [255, 0, 0])]:
        try:
            due(f"question {question} at {cut}", library.holds(data, question, cut), f"refused {number}")
        except ask.Refusal as refusal:
            due(f"question {question} at {cut}", (refusal.number, refusal.line), (number, 0))


def main():
    for path, command in [(ARCHIVE, "tools/build.sh exports"), (COMPARE, "cargo build --release -p compare")]:
        if not path.exists():
            sys.exit(f"{path} is not there: run `{command}`")
    library = ask.Library()
    declarations()
    limits()
    compiled()
    same(library)
    merges(library)
    failures(library)
    print(f"bindings: {checks} checks, {wrong} wrong")
    sys.exit(wrong > 0)


if __name__ == "__main__":
    main()
