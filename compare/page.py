#!/usr/bin/env python3
"""usage: compare/page.py [stored]      types the five things of docs/BENCH.md, from the first to the last, in an empty folder, and holds the output to the page;
then holds every other `$ bench` example of README and BENCH to the gate's own output, crates/bench_replay/stdout. `stored`: this alone.

A line of the page that is `..` stands for any lines; every other line shown must be there, in this order, and the last one last. Each bench command must also
stand in crates/bench_replay/data/lines, in the same order, which the gate runs. Needs crates/bench/out/bench (cd crates/bench && rt run). The last line is 'N passed, M failed'.
"""
import os
import shutil
import subprocess
import sys
import tempfile

ROOT = os.path.dirname(os.path.dirname(os.path.realpath(__file__)))
PLACE = "/srv/vikstraum"


def text_of(name):
    with open(f"{ROOT}/{name}", encoding="utf-8") as file:
        return file.read()


def parts():
    """The page's five things; and README with the rest of the page."""
    before, rest = text_of("docs/BENCH.md").split("\n## The five things", 1)
    five, after = rest.split("\n## ", 1)
    return five, text_of("README.md") + before + after


def blocks(part):
    """The commands of a part, each with the lines that are shown after it."""
    found = []
    within = False
    for line in part.split("\n"):
        if line.startswith("    $ "):
            found.append((line[6:], []))
            within = True
        elif line.startswith("    ") and within:
            found[-1][1].append(line[4:])
        else:
            within = False
    return found


def fits(shown, lines):
    """Whether the output has the lines that are shown, with any lines where `..` stands."""
    if not shown:
        return True
    if shown[0].strip() == "..":
        return any(fits(shown[1:], lines[i:]) for i in range(len(lines) + 1)) if shown[1:] else True
    if not lines or lines[0] != shown[0]:
        return False
    return fits(shown[1:], lines[1:]) if shown[1:] else len(lines) == 1


def outputs():
    """What the gate's stored output has for each command, as often as it stands there."""
    found = {}
    last = []
    for line in text_of("crates/bench_replay/stdout").split("\n"):
        if line.startswith("$ "):
            last = []
            found.setdefault(line[2:], []).append(last)
        elif not line or line.startswith("# "):
            last = []
        else:
            last.append(line)
    return found


def stored(part):
    """How many examples the stored output has, and how many it has not."""
    passed = failed = 0
    found = outputs()
    for command, shown in blocks(part):
        if not command.startswith("bench "):
            continue
        if any(fits(shown, lines) for lines in found.get(command, [])):
            passed += 1
        else:
            failed += 1
            print(f"FAILED: {command}: no output of it in crates/bench_replay/stdout is:", *shown, sep="\n  ")
    return passed, failed


def in_gate(commands):
    """The bench commands that the gate's list does not have, in this order, from where its five things begin."""
    gate = text_of("crates/bench_replay/data/lines").split("# the five things", 1)[-1].split("\n")
    gate = [line[2:] for line in gate if line.startswith("$ ")]
    page = [c[len("bench "):] for c in commands if c.startswith("bench ")]
    return page == gate


def main():
    five, rest = parts()
    passed, failed = stored(rest)
    if sys.argv[1:] == ["stored"]:
        print(f"{passed} passed, {failed} failed")
        return 1 if failed or not passed else 0
    room = tempfile.mkdtemp()
    path = os.environ["PATH"]
    found = blocks(five)
    try:
        for command, shown in found:
            if command.startswith("PATH="):
                path = command[5:].replace(PLACE, ROOT).replace("$PATH", path)
                continue
            run = subprocess.run(["sh", "-c", command.replace(PLACE, ROOT)], cwd=room, env={**os.environ, "PATH": path},
                                 stdout=subprocess.PIPE, stderr=subprocess.STDOUT, text=True, check=False)
            lines = run.stdout.split("\n")[:-1]
            if run.returncode == 0 and fits(shown, lines):
                passed += 1
            else:
                failed += 1
                print(f"FAILED: {command}: status {run.returncode}; shown:", *shown, "found:", *lines, sep="\n  ")
    finally:
        shutil.rmtree(room)
    if in_gate([c for c, _ in found]):
        passed += 1
    else:
        failed += 1
        print("FAILED: the bench commands of the page and those of crates/bench_replay/data/lines differ")
    print(f"{passed} passed, {failed} failed")
    return 1 if failed or not passed else 0


sys.exit(main())
