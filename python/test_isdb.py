"""Tests of isdb.py over the library that it finds: python3 -m unittest discover -s python (ISDB_LIBRARY names the library; compare/install.sh runs this)."""
import array
import math
import os
import random
import re as patterns
import unittest

import isdb

try:
    import numpy
except ImportError:
    numpy = None

HEADER = os.path.join(os.path.dirname(os.path.abspath(__file__)), "..", "include", "isdb.h")
TABLES = [isdb.table((6, 48)), isdb.table((7, 44), (1, 4)), isdb.table((2, 2), (3, 3), (4, 4), (5, 6)), isdb.table((7, 1)), isdb.table((15, 8), (6, 40))]
W1, W2 = 0xECD28, 0x0B677
MADE = set()


def noted(name):
    call = getattr(isdb, name)

    def made(*arguments):
        MADE.add(name)
        return call(*arguments)
    return made


for each in isdb.CALLS:
    setattr(isdb, each, noted(each))


def load_of(table, seed):
    return random.Random(seed).randbytes(203 * isdb.valid_slots(table))


def fresh():
    """Path values from state 0, decision words for a traceback of 128."""
    return array.array("f", [0.0] + [-1e6] * 63), isdb.zeros("u64", isdb.ISDB_RELEASED + 128)


def full_frame(re, im, first=True):
    """A full frame around main points, with a header of +1 and -1."""
    head = isdb.zeros("f64", 192)
    for at, word in ((12, W1), (172, W2 if first else W2 ^ 0xFFFFF)):
        for i in range(20):
            head[at + i] = -1.0 if word >> 19 - i & 1 else 1.0
    whole = isdb.zeros("f64", isdb.ISDBS_FRAME_SYMBOLS), isdb.zeros("f64", isdb.ISDBS_FRAME_SYMBOLS)
    isdb.isdbs_lay_frame(head, isdb.zeros("f64", 192), re, im, isdb.zeros("f64", 768), isdb.zeros("f64", 768), *whole)
    return whole


class Frames(unittest.TestCase):
    def test_there_and_back(self):
        for table in TABLES:
            for mapping in range(8):
                for first in (True, False):
                    load = load_of(table, mapping)
                    re, im, _ = isdb.encode_frame(load, table, mapping, 0 if first else 63)
                    read = isdb.decode_frame(re, im, table, mapping, first)
                    self.assertEqual((read.bytes, read.sum), (load, 0))
                    self.assertEqual(sum(read.counts), 0)

    def test_wanted_load_and_verdict(self):
        for table in TABLES:
            load = load_of(table, 5)
            re, im, _ = isdb.encode_frame(load, table)
            self.assertEqual(isdb.wanted_load(re, im, table), load)
            self.assertEqual(isdb.judge(re, im, load, table).sum, 0)
            at = isdb.runs(table)[0][4] + 400
            re[at] += 0.5
            verdict = isdb.judge(re, im, load, table)
            self.assertEqual((verdict.sum, verdict.counts[at // 812]), (1, 1))

    def test_quality(self):
        for table in TABLES:
            load = load_of(table, 3)
            re, im, _ = isdb.encode_frame(load, table)
            clean = isdb.quality(re, im, load, table)
            run = isdb.runs(table)[0]
            at = run[4]  # its first symbol
            slot = clean[at // 812]
            self.assertEqual((slot.points, slot.error, slot.offset), (812, 0, 0))
            self.assertAlmostEqual(slot.signal, 812)
            self.assertEqual(slot.turned, slot.signal)
            self.assertEqual(sum(s.points for s in clean), sum(r[5] - r[4] for r in isdb.runs(table)))
            re[at] += 0.5
            found = isdb.quality(re, im, load, table)
            self.assertEqual((found[at // 812].error, found[at // 812].offset), (0.25, 0.5))
            self.assertEqual(found[at // 812 + 1:], clean[at // 812 + 1:])
            with self.assertRaises(isdb.Refused) as why:
                isdb.quality(re, im, load + b"x", table)
            self.assertEqual(why.exception.number, isdb.ISDB_ANSWER_LENGTH)

    def test_best_reading(self):
        for table in TABLES:
            load = load_of(table, 9)
            re, im, _ = isdb.encode_frame(load, table)
            draw = random.Random(3)
            for parts in (re, im):
                for i in range(len(parts)):
                    parts[i] += draw.gauss(0.0, 0.05)
            best = isdb.best_reading(re, im, table)
            self.assertEqual(best.bytes, load)
            self.assertEqual(len(best.leads), isdb.valid_slots(table))
            self.assertGreater(min(best.leads), 0)
        re, im, _ = isdb.encode_frame(load_of(TABLES[0], 1), TABLES[0])
        best = isdb.best_reading(re, im, TABLES[0])
        self.assertEqual((best.leads[7], best.leads[-1]), (35589846, 11863282))  # the header's numbers for QPSK 7/8

    def test_tables(self):
        table = isdb.table((7, 44), (1, 4))
        self.assertEqual(isdb.runs(table), [(7, 0, 44, 44, 0, 44 * 812), (1, 44, 48, 1, 44 * 812, 48 * 812)])
        out = bytearray(48)
        isdb.isdbs_slot_combinations(table, out)
        self.assertEqual((out[0], sum(1 for word in out if word)), (7, 45))
        self.assertEqual(isdb.isdbs_bit_symbol(2, 8), 8)

    def test_full_frames(self):
        re, im, _ = isdb.encode_frame(load_of(TABLES[1], 2), TABLES[1])
        whole = full_frame(re, im)
        parts = [isdb.zeros("f64", n) for n in (192, 192, 38976, 38976, 768, 768)]
        isdb.isdbs_take_frame(*whole, *parts)
        self.assertEqual((parts[2], parts[3]), (re, im))

    def test_header_found_and_turned(self):
        for first in (True, False):
            load = load_of(TABLES[1], 4)
            re, im, _ = isdb.encode_frame(load, TABLES[1], 4, 0 if first else 63)
            whole_re, whole_im = full_frame(re, im, first)
            c, s = 3 * math.cos(0.7), 3 * math.sin(0.7)
            turned_re = array.array("d", [0.0] * 77 + [x * c - y * s for x, y in zip(whole_re, whole_im)])
            turned_im = array.array("d", [0.0] * 77 + [x * s + y * c for x, y in zip(whole_re, whole_im)])
            found = isdb.find_frame(turned_re, turned_im)
            self.assertEqual((found.place, found.kind, found.turn), (77, int(first), 1))
            self.assertEqual((found.re_sum, found.im_sum), (40, 40))
            self.assertEqual(isdb.header(turned_re, turned_im, 77), found[1:])
            aligned = isdb.align_frame(turned_re, turned_im, 77)
            main = [isdb.zeros("f64", n) for n in (192, 192, 38976, 38976, 768, 768)]
            isdb.isdbs_take_frame(*aligned, *main)
            self.assertEqual(isdb.decode_frame(main[2], main[3], TABLES[1], 4, first).bytes, load)
            self.assertEqual(isdb.judge(main[2], main[3], load, TABLES[1], 4, first).sum, 0)

    def test_window(self):
        kept, state = isdb.zeros("u32", 2), (0, 0)
        for total, sums in ((5, 5), (12, 7), (10, 3)):
            fill, after, whole, greatest = isdb.isdbs_window_push(2, *state, 0, sums, kept)
            state = fill, after
            self.assertEqual(whole, total)
        self.assertEqual((greatest, state), (7, (2, 1)))


class Codes(unittest.TestCase):
    def setUp(self):
        self.bits = bytes(random.Random(8).randrange(2) for _ in range(9000))
        self.coded = bytearray(18000)
        self.end = isdb.isdb_code_encode(7, 0o171, 0o133, 0, self.bits, self.coded)

    def decoded(self, push, flush, values):
        """A stream in two pieces and a flush."""
        (pm, decisions), held, out, got = fresh(), 0, bytearray(9000), b""
        half = len(values) // 8 * 4
        for piece in (values[:half], values[half:]):
            held, count = push(pm, held, 128, piece, decisions, out)
            got += bytes(out[:count])
        held, count = flush(pm, held, 128, decisions, out)
        self.assertEqual(held, 0)
        return got + bytes(out[:count])

    def test_streams(self):
        signs = [1.0 - 2.0 * bit for bit in self.coded]
        soft = array.array("f", signs)
        four = array.array("f", [x * signs[i] + y * signs[i + 1] for i in range(0, len(signs), 2) for x in (1, -1) for y in (1, -1)])

        def coded(name):
            return lambda *words: getattr(isdb, name)(7, 0o171, 0o133, *words)

        def known_end(name):
            return lambda pm, held, traceback, decisions, out: name(pm, held, traceback, self.end, decisions, out)
        for push, flush, values in ((isdb.isdb_push, isdb.isdb_flush, soft), (isdb.isdb_push_metrics, known_end(isdb.isdb_flush_at), four), (isdb.isdb_push_known, isdb.isdb_flush, self.bits),
                                    (coded("isdb_code_push"), coded("isdb_code_flush"), soft), (coded("isdb_code_push_metrics"), known_end(coded("isdb_code_flush_at")), four),
                                    (coded("isdb_code_push_known"), coded("isdb_code_flush"), self.bits)):
            self.assertEqual(self.decoded(push, flush, values), self.bits)

    def test_isdbt(self):
        for rate, (period, sent) in enumerate(((1, 2), (2, 3), (3, 4), (5, 6), (7, 8))):
            bits = self.bits[:period * 400]
            out = bytearray(sent * 400)
            _, count = isdb.isdbt_encode_punctured(rate, 0, bits, out)
            self.assertEqual(count, sent * 400)
            values = array.array("f", [1.0 - 2.0 * bit for bit in out])
            mother = isdb.zeros("f32", 2 * len(bits))
            self.assertEqual(isdb.isdbt_depuncture(rate, values, mother), 2 * len(bits))
            self.assertEqual(sum(1 for x in mother if x), sent * 400)
            got = bytearray(len(bits))
            self.assertEqual(isdb.isdbt_decode_punctured(rate, values, 128, isdb.zeros("u64", 4224), got), len(bits))
            self.assertEqual(got[:-16], bits[:-16])

    def test_mend(self):
        stretch = bytearray(self.coded[:2000])
        end = isdb.isdb_code_encode(7, 0o171, 0o133, 0, self.bits[:1000], bytearray(2000))
        for at in (3, 500, 501, 1999):
            stretch[at] ^= 1
        out, places = bytearray(2000), isdb.zeros("u32", 4)
        self.assertEqual(isdb.isdb_mend(stretch, 0, end, isdb.zeros("u64", 4224), out, places), 4)
        self.assertEqual((out, list(places)), (self.coded[:2000], [3, 500, 501, 1999]))


class Refusals(unittest.TestCase):
    def refused(self, row, call, *arguments):
        with self.assertRaises(isdb.Refused) as caught:
            call(*arguments)
        self.assertEqual((caught.exception.number, caught.exception.words), (row, isdb.ANSWERS[row]))
        self.assertIn(isdb.ANSWERS[row], str(caught.exception))

    def test_each_row(self):
        table, zeros = TABLES[0], isdb.zeros
        load = load_of(table, 1)
        re, im, _ = isdb.encode_frame(load, table)
        bad = array.array("d", re)
        bad[5] = math.nan
        pm, words = fresh()
        unlike = array.array("d", [0.5] * 38976)
        self.refused(1, isdb.encode_frame, b"", isdb.table((6, 56)))
        self.refused(2, isdb.isdbs_bit_symbol, 8, 0)
        self.refused(3, isdb.isdb_push, pm, 0, 0, zeros("f32", 2), words, bytearray(1))
        self.refused(4, isdb.encode_frame, b"", table, 4, 64)
        self.refused(5, isdb.decode_frame, re, im, table, 4, True, True, [8.0] * 6)
        self.refused(6, isdb.decode_frame, re[:-1], im, table)
        self.refused(7, isdb.decode_frame, bad, im, table)
        self.refused(8, isdb.decode_frame, re, im, table, 4, True, True, [8.0] * 6 + [0.0])
        self.refused(9, isdb.isdbs_slot_combinations, table, bytearray(47))
        self.refused(10, isdb.runs, isdb.table((6, 7)))
        self.refused(11, isdb.runs, isdb.table((9, 1)))
        self.refused(12, isdb.isdb_code_encode, 8, 0o171, 0o133, 0, b"", bytearray(0))
        self.refused(13, isdb.wanted_load, unlike, unlike, table)
        self.refused(14, isdb.isdbs_window_push, 257, 0, 0, 0, 0, zeros("u32", 257))
        self.refused(15, isdb.isdb_mend, bytes([1, 1, 0, 1, 1, 1, 1, 1, 0, 1, 0, 0] * 20), 0, 0, zeros("u64", 4224), bytearray(240), zeros("u32", 4))

    def test_nothing_written(self):
        out = bytearray(b"\x55" * 47)
        self.refused(9, isdb.isdbs_slot_combinations, TABLES[0], out)
        self.assertEqual(out, b"\x55" * 47)


class Buffers(unittest.TestCase):
    def test_nothing_is_copied(self):
        bits, out = bytes([1, 0, 1, 1]), [bytearray(8), array.array("B", bytes(8)), memoryview(bytearray(8)), (isdb.ctypes.c_uint8 * 8)()]
        for place in out:
            isdb.isdb_code_encode(7, 0o171, 0o133, 0, bits, place)
            self.assertEqual(bytes(place), bytes(out[0]))
        self.assertNotEqual(bytes(out[0]), bytes(8))
        for form in (bytes, bytearray, list, tuple, memoryview, lambda b: array.array("B", b)):
            again = bytearray(8)
            isdb.isdb_code_encode(7, 0o171, 0o133, 0, form(bits), again)
            self.assertEqual(again, out[0])

    def test_wrong_types(self):
        table = TABLES[0]
        with self.assertRaises(TypeError):
            isdb.isdbs_slot_combinations(table, bytes(48))  # read-only
        with self.assertRaises(TypeError):
            isdb.isdbs_slot_combinations(table, isdb.zeros("u32", 48))  # another type
        with self.assertRaises(TypeError):
            isdb.isdbs_slot_combinations(table, memoryview(bytearray(96))[::2])  # not in one piece
        with self.assertRaises(TypeError):
            isdb.isdbs_slot_combinations(table)
        with self.assertRaises(OverflowError):
            isdb.isdbs_bit_symbol(256, 0)

    @unittest.skipUnless(numpy, "numpy is not installed")
    def test_numpy(self):
        load = numpy.frombuffer(load_of(TABLES[0], 6), dtype=numpy.uint8)  # read-only
        re, im = numpy.zeros(38976), numpy.zeros(38976)
        isdb.isdbs_encode_frame(load, TABLES[0], 4, 0, re, im)
        self.assertGreater(numpy.abs(re).sum(), 0)
        self.assertEqual(isdb.decode_frame(re, im, TABLES[0]).bytes, load.tobytes())
        with self.assertRaises(TypeError):
            isdb.isdbs_encode_frame(load, TABLES[0], 4, 0, re.astype(numpy.float32), im)


class Whole(unittest.TestCase):
    def test_version_and_words(self):
        self.assertEqual(isdb.isdb_version(), 10000 * isdb.ISDB_VERSION_MAJOR + 100 * isdb.ISDB_VERSION_MINOR + isdb.ISDB_VERSION_PATCH)
        self.assertEqual(isdb.VERSION, "%d.%d.%d" % (isdb.ISDB_VERSION_MAJOR, isdb.ISDB_VERSION_MINOR, isdb.ISDB_VERSION_PATCH))
        self.assertEqual(sorted(isdb.ANSWERS), list(range(16)))
        self.assertEqual(isdb.answer_text(16), "no such answer")
        self.assertTrue(isdb.environment_ok())
        self.assertEqual(isdb.isdbs_soft(0.1), 0.10000000149011612)

    def test_zz_every_call_of_the_header_was_made(self):
        with open(HEADER, encoding="utf-8") as file:
            text = patterns.sub(r"/\*.*?\*/", "", file.read(), flags=patterns.S)
        names = set(patterns.findall(r"\b(isdb[st]?_\w+)\([^()]*\);", text))
        self.assertEqual(names, set(isdb.CALLS))
        if len(MADE) > 3:  # not where this class is run alone
            self.assertEqual(names - MADE, set())


if __name__ == "__main__":
    unittest.main()
