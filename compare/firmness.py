#!/usr/bin/env python3
"""usage: compare/firmness.py [FRAMES]      the flags `firm` of `bench read .. json` beside the rule of docs/BENCH.md, worked out apart.

Made frames of each combination and of mixed tables, with white noise from 1 to 5 dB above where bytes fail, some with a burst, and clean ones with a burst. The level of each
of the frame's slots is worked out from the points and from the frame that `bench make` makes of the bytes that were read; it is held to the JSON's mer_db, and the rule to the
JSON's strength and firm. Needs crates/bench/out/bench (cd crates/bench && rt run; or BENCH=program). The last line is 'N flags, M different, ..'; FRAMES is how many for each table (6).
"""
import array
import json
import math
import os
import random
import shutil
import subprocess
import sys
import tempfile

ROOT = os.path.dirname(os.path.dirname(os.path.realpath(__file__)))
BENCH = os.path.abspath(os.environ.get("BENCH", f"{ROOT}/crates/bench/out/bench"))
SLOT = 812
# By word: slots and valid slots of a unit, and where bytes fail in tenths of a dB.
COMBINATIONS = {1: (4, 1, 0), 2: (2, 1, 30), 3: (3, 2, 50), 4: (4, 3, 70), 5: (6, 5, 70), 6: (8, 7, 80), 7: (1, 1, 90)}
TABLES = ("1:48", "2:48", "3:48", "4:48", "5:48", "6:48", "7:48", "7:44,1:4", "6:16,4:8,2:20,1:4", "15:4,3:30,5:6,1:8")


def runs_of(table):
    """Word, first slot and slots of each run; slots are counted by the points, where those of word 15 take none."""
    runs, at = [], 0
    for entry in table.split(","):
        word, slots = (int(x) for x in entry.split(":"))
        if word in COMBINATIONS:
            runs.append((word, at, slots))
            at += slots
    return runs


def bench(*words):
    done = subprocess.run([BENCH, *words], stdout=subprocess.PIPE, check=False, text=True)
    return done.stdout.split("\n")[-2]


def points_of(name):
    parts = array.array("d")
    with open(name, "rb") as file:
        parts.frombytes(file.read())
    return parts


def levels_of(table, sent, got):
    """The decibels of each slot (none where no point counts), and the levels of the rule in tenths."""
    decibels, levels = [None] * 48, [None] * 48
    for word, start, slots in runs_of(table):
        step = 2 if word == 1 else 1
        for j in range(start, start + slots):
            places = range(2 * SLOT * j, 2 * SLOT * (j + 1), step)
            signal = math.fsum(sent[i] * sent[i] for i in places)
            error = math.fsum((got[i] - sent[i]) ** 2 for i in places)
            ratio = 10 * math.log10(signal / error) if error else 60.0
            decibels[j] = min(60.0, max(-30.0, ratio))
            levels[j] = 600 if ratio >= 60 else math.floor(10 * ratio) - (30 if word == 1 else 0)
    return decibels, levels


def at_end(word, middle):
    """The strength that the frame's last slot needs."""
    return max(45, 100 - 3 * max(0, middle - {1: 0, 2: 30}.get(word, 60)) // 2)


def firm_of(table, levels, strengths):
    """The rule: whether each valid slot is firm."""
    counted = [x for x in levels if x is not None]
    middle = max(x for x in counted if 2 * sum(y >= x for y in counted) > len(counted))
    flags, total = [], len(strengths)
    for word, start, slots in runs_of(table):
        unit, valid, fails = COMBINATIONS[word]
        for i in range(slots // unit * valid):
            last = len(flags) == total - 1
            a = start + i * unit // valid
            b = start + ((i + 1) * unit + valid - 1) // valid
            worst = min(levels[a:b])
            beside = min([levels[j] for j in (a - 1, b) if 0 <= j < 48 and levels[j] is not None], default=10_000)
            short = max(0, middle - worst - (5 if word == 1 else 3))
            need = (at_end(word, middle) if last else min(30, max(22 if word == 7 else 10, middle - fails - 10))) + 6 * short
            if beside < middle - 10:
                need = max(need, 60)
            flags.append(worst >= fails + 13 and short <= (1 if last else 2) and strengths[len(flags)] >= need)
    return flags


def spoil(parts, rng, decibels, burst):
    """White noise of this C/N (none where it is None), and a burst of symbols."""
    sigma = 0.0 if decibels is None else math.sqrt(0.5 * 10 ** (-decibels / 10))
    if sigma:
        for i in range(len(parts)):
            parts[i] += rng.gauss(0, sigma)
    if burst:
        first = rng.randrange(len(parts) // 2 - burst)
        for i in range(2 * first, 2 * (first + burst)):
            parts[i] = rng.gauss(0, 1)


def main():
    frames = int(sys.argv[1]) if len(sys.argv) > 1 else 6
    rng = random.Random(1)
    flags = different = firm = mers = off = 0
    room = tempfile.mkdtemp()
    os.chdir(room)
    try:
        for table in TABLES:
            fails = max(COMBINATIONS[word][2] for word, _, _ in runs_of(table)) / 10
            for n in range(frames):
                decibels = None if n == 5 else fails + 1 + n % 5
                burst = (0, 0, 0, 40, 200, 20)[n % 6]
                with open("load", "wb") as file:
                    file.write(rng.randbytes(9744))
                assert bench("make", table, "001", "first", "load", "frame.cf64") == "ok"
                got = points_of("frame.cf64")
                spoil(got, rng, decibels, burst)
                with open("frame.cf64", "wb") as file:
                    got.tofile(file)
                last = bench("read", table, "001", "first", "frame.cf64", "bytes", "json", "frame.json")
                assert last.startswith(("ok", "doubtful")), last
                assert bench("make", table, "001", "first", "bytes", "sent.cf64") == "ok"
                with open("frame.json", encoding="utf-8") as file:
                    said = json.load(file)
                decibels_of, levels = levels_of(table, points_of("sent.cf64"), got)
                for j, slot in enumerate(said["slots"]):
                    mers += 1
                    if (slot["mer_db"] is None) != (decibels_of[j] is None) or decibels_of[j] is not None and abs(slot["mer_db"] - decibels_of[j]) > 0.0501:
                        off += 1
                        print(f"{table}, frame {n}, slot {j}: MER {slot['mer_db']}, worked out {decibels_of[j]}")
                wanted = firm_of(table, levels, [s["strength"] for s in said["valid"]])
                for slot, want in zip(said["valid"], wanted, strict=True):
                    flags += 1
                    firm += want
                    if slot["firm"] != want:
                        different += 1
                        print(f"{table}, frame {n} ({decibels} dB, burst of {burst}), valid slot {slot['valid_slot']} {slot['combination']}: firm is {slot['firm']}, the rule says {want}; strength {slot['strength']}")
    finally:
        os.chdir("/")
        shutil.rmtree(room)
    print(f"{flags} flags, {different} different, {firm} firm; {mers} slots' MER, {off} off by more than half a tenth")
    return 1 if different or off or not flags else 0


sys.exit(main())
