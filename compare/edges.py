#!/usr/bin/env python3
"""usage: compare/edges.py [full|turned|killed|COMMAND..]      `bench read` with all five outputs, and the other commands that write, where the disk is full, an output cannot be written, or the run is killed.

After each run every output must be the old file or the new one, whole (where nothing was killed: all old, or as the last line says), the input must be as it was, and
the last line must say what happened. After a kill the advice of the last line is followed, which must lead to a run that ends with ok. Runs are killed at
every system call from the first file that is made on, by strace. Disk full: in a small tmpfs, which needs root, and by errors that strace hands to the program.
Needs crates/bench/out/bench (cd crates/bench && rt run; or BENCH=program) and strace. The last line is 'N passed, M failed'.
"""
import os
import re
import shutil
import subprocess
import sys
import tempfile
from collections import Counter

ROOT = os.path.dirname(os.path.dirname(os.path.realpath(__file__)))
BENCH = os.path.abspath(os.environ.get("BENCH", f"{ROOT}/crates/bench/out/bench"))
# Each command: its words, its input, its outputs in the order in which they get their names, and its last line.
COMMANDS = (
    ("read 7:44,1:4 001 first frame.cf64 new.bytes best new.best chart new.svg report new.report json new.json", "frame.cf64", "new.bytes new.best new.svg new.report new.json", "ok: certain"),
    ("make 7:44,1:4 001 first load new.cf64", "load", "new.cf64", "ok"),
    ("best 7:44,1:4 001 first frame.cf64 new.bytes", "frame.cf64", "new.bytes", "ok"),
    ("part full.cf64 new.header new.main new.burst", "full.cf64", "new.header new.main new.burst", "ok"),
    ("cut full.cf64 0 new.cf64 align", "full.cf64", "new.cf64", "ok"),
    ("capture 7:44,1:4 001 full.cf64 new.lines", "full.cf64", "new.lines", "ok"),
)
WORDS, INPUT, OUTPUTS, OK = [], "", (), ""
passed = 0
failed = 0


def hold(what, good, seen=""):
    global passed, failed
    if good:
        passed += 1
    else:
        failed += 1
        print(f"FAILED: {what}: {seen}", flush=True)


def run(words, before=()):
    """Runs bench, and answers its last line (none where it wrote nothing)."""
    return lines_of(words, before)[-1]


def lines_of(words, before=()):
    """Runs bench, and answers its lines; one empty line where it wrote nothing."""
    done = subprocess.run([*before, BENCH, *words], stdout=subprocess.PIPE, stderr=subprocess.PIPE, check=False)
    return done.stdout.decode(errors="replace").split("\n")[:-1] or [""]


def content(name):
    try:
        with open(name, "rb") as file:
            return file.read()
    except FileNotFoundError:
        return None


def lay_out(with_old):
    """The outputs as they were before a run."""
    for name in OUTPUTS:
        for ending in ("", ".part", ".run"):
            if os.path.lexists(name + ending):
                os.unlink(name + ending)
        if with_old:
            with open(name, "wb") as file:
                file.write(f"the old {name}\n".encode())


def state(new):
    """Which outputs are old and which are new; a word for any other."""
    kinds = []
    for name in OUTPUTS:
        c = content(name)
        kinds.append("new" if c == new[name] else "old" if c == f"the old {name}\n".encode() else "none" if c is None else "BROKEN")
    return kinds


def left():
    return sorted(n for n in os.listdir(".") if n.endswith((".part", ".run")))


def strace(call, how, path=""):
    """The words before a command that let strace meddle with a system call, of any file or of one that the run makes."""
    of = ["-P", path, "-P", os.path.abspath(path)] if path else []
    return ["strace", "-o", "/dev/null", *of, "-e", f"trace={call}", "-e", f"inject={call}:{how}"]


def full_disks(new, source):
    """A tmpfs of every size from one at which nothing fits to one at which all does."""
    room = tempfile.mkdtemp()
    ends = Counter()
    for pages in range(7, 36):
        if subprocess.run(["mount", "-t", "tmpfs", "-o", f"size={pages * 4}k", "tmpfs", room], check=False, stderr=subprocess.DEVNULL).returncode:
            print("no tmpfs can be mounted: left out")
            break
        here = os.getcwd()
        try:
            os.chdir(room)
            lay_out(True)
            os.symlink(f"{here}/frame.cf64", "frame.cf64")
            last = run(WORDS)
            kinds = state(new)
            what = f"a disk of {pages} pages"
            hold(f"{what}: nothing is left", not left(), left())
            if last == OK:
                ends["ok"] += 1
                hold(f"{what}: all new", kinds == ["new"] * len(OUTPUTS), kinds)
            else:
                ends[re.sub(r".*(new\.\w+).*", r"\1", last)] += 1
                hold(f"{what}: all old", kinds == ["old"] * len(OUTPUTS), kinds)
                hold(f"{what}: the last line", re.fullmatch(r'failed: cannot (write|make) "new\.\w+(\.part)?": .*', last), last)
        finally:
            os.chdir(here)
            subprocess.run(["umount", room], check=True)
        hold(f"{what}: the input", content(INPUT) == source)
    os.rmdir(room)
    print("disk full, runs by the output that did not fit:", dict(ends))
    hold("each output was the one that did not fit", not ends or set(ends) == {"ok", *OUTPUTS}, dict(ends))


def turned_back(new, source):
    """The system turns back a write, an fsync, the making of a file, a rename."""
    cases = [(call, error, i, with_old) for i in range(len(OUTPUTS)) for with_old in (True, False)
             for call, error in (("write", "ENOSPC"), ("fsync", "EIO"), ("openat", "ENOSPC"), ("rename", "EIO"))]
    for call, error, i, with_old in cases:
        name = OUTPUTS[i]
        was = "old" if with_old else "none"
        lay_out(with_old)
        if call == "rename":
            last = run(WORDS, strace(call, f"error={error}:when={i + 1}"))
        else:
            last = run(WORDS, strace(call, f"error={error}", name + ".part"))
        first = i if call == "rename" else 0
        what = f"{call} of {name} gives {error}, before it {was}"
        hold(what, state(new) == ["new"] * first + [was] * (len(OUTPUTS) - first), state(new))
        hold(f"{what}: last line", re.fullmatch(rf'failed: cannot (write|make) "{name}(\.part)?"(: .*)?', last), last)
        hold(f"{what}: nothing is left", not left(), left())
        hold(f"{what}: the input", content(INPUT) == source)
    print(f"{len(cases)} runs in which the system turned a call back; the last such line: {last}")


def go_on(what, ends):
    """Follows the advice of last lines, and of the lines that name more files to remove, until a run ends with ok; answers how many runs were needed."""
    for turn in range(1, 8):
        lines = lines_of(WORDS)
        last = lines[-1]
        if last == OK:
            return turn
        gone = re.fullmatch(r'failed: cannot write "(.*)": process \d+, which was writing it, was broken off: remove "(.*)" and "(.*)", and run again', last)
        unknown = re.fullmatch(r'failed: cannot write "(.*)": another run may be writing it, or one was broken off: then remove "(.*)" and "(.*)", and run again', last)
        alone = re.fullmatch(r'failed: cannot make "(.*)": it is there already; .*: remove it, and run again', last)
        found = gone or unknown or alone
        if not found:
            hold(f"{what}: how to go on", False, last)
            return 0
        ends["broken off" if gone else "another run may be writing it" if unknown else "a part alone"] += 1
        named = [name for line in lines for name in (re.fullmatch(r'  "(.*\.run)" and "(.*\.part)"', line) or re.match("()", line)).groups() if name]
        for name in [*named, *(found.groups()[1:] if not alone else found.groups())]:
            if os.path.lexists(name):
                os.unlink(name)
    hold(f"{what}: how to go on", False, "no end in seven runs")
    return 0


def killed(new, source):
    """A run killed on entering each of its system calls, from the first file that it makes on."""
    lay_out(True)
    run(WORDS, ["strace", "-o", "calls"])
    with open("calls", encoding="utf-8", errors="replace") as file:
        lines = file.read().split("\n")
    os.unlink("calls")
    points = []
    count = Counter()
    begun = False
    for line in lines:
        found = re.match(r"(\w+)\(", line)
        if found:
            call = found.group(1)
            count[call] += 1
            begun = begun or "O_CREAT" in line
            if begun and not call.startswith("exit"):
                points.append((call, count[call]))
    kinds = Counter()
    ends = Counter()
    turns = Counter()
    for call, k in points:
        lay_out(True)
        what = f"killed at {call} {k}"
        done = subprocess.run([*strace(call, f"signal=KILL:when={k}"), BENCH, *WORDS], stdout=subprocess.DEVNULL, stderr=subprocess.DEVNULL, check=False)
        hold(f"{what}: it is", done.returncode in (-9, 137), done.returncode)
        seen = state(new)
        n = seen.count("new")
        kinds[f"{n} new, {len(OUTPUTS) - n} old"] += 1
        hold(what, seen == ["new"] * n + ["old"] * (len(OUTPUTS) - n), seen)
        hold(f"{what}: the input", content(INPUT) == source)
        turns[go_on(what, ends)] += 1
        hold(f"{what}: afterwards", state(new) == ["new"] * len(OUTPUTS) and not left(), (state(new), left()))
    runs = len(points)
    total = Counter(call for call, _ in points)
    print(f"{runs} runs killed, at each of these system calls:", dict(total))
    print("found then:", dict(kinds))
    print("what the next runs said:", dict(ends), "runs until ok:", dict(sorted(turns.items())))


def main():
    global WORDS, INPUT, OUTPUTS, OK
    room = tempfile.mkdtemp(dir="/dev/shm" if os.path.isdir("/dev/shm") else None)
    os.chdir(room)
    try:
        shutil.copy(f"{ROOT}/crates/bench_replay/data/load", "load")
        data = f"{ROOT}/crates/bench_replay/data"
        assert run("make 7:44,1:4 001 first load frame.cf64".split()) == "ok"
        assert run(["lay", f"{data}/header_first.cf32", "frame.cf64", "frame.cf64", "full.cf64"]) == "ok"
        ways = {"full": full_disks, "turned": turned_back, "killed": killed}
        asked = [w for w in sys.argv[1:] if w in ways] or list(ways)
        named = [w for w in sys.argv[1:] if w not in ways]
        for command in COMMANDS:
            if named and command[0].split()[0] not in named:
                continue
            words, INPUT, outputs, OK = command
            WORDS, OUTPUTS = words.split(), tuple(outputs.split())
            print(f"{WORDS[0]}:", flush=True)
            assert run(WORDS) == OK
            new = {name: content(name) for name in OUTPUTS}
            source = content(INPUT)
            for way in asked:
                if way != "full" or WORDS[0] == "read":
                    ways[way](new, source)
            lay_out(False)
    finally:
        os.chdir("/")
        shutil.rmtree(room)
    print(f"{passed} passed, {failed} failed")
    return 1 if failed or not passed else 0


sys.exit(main())
