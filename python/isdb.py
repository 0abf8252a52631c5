"""ISDB-S frames and the inner code of ISDB: the calls of include/isdb.h, from libisdb.so by ctypes. The standard library is enough.

Every call of the header is a function here of the same name and with the header's parameters in their order, but:
  - a slice is one argument without its length: an array.array, bytes, bytearray, memoryview, ctypes array or numpy array of the element's type, in one piece. It is not copied.
    Bytes of any type are taken for uint8_t; a slice that the call writes must be writable. A list of numbers is taken (and copied) where the call only reads.
  - a number behind a pointer that is only written is no argument; one that is read and written (held, fill, next, state) is a number;
  - the result is what is behind these pointers afterwards, in their order: nothing, a number or a tuple. Where the library refuses, Refused is raised and nothing lent has changed.

    import isdb
    table = isdb.table((6, 8))                               # 8 slots of QPSK 7/8, of which 7 are valid
    re, im, end = isdb.encode_frame(bytes(7 * 203), table)
    isdb.decode_frame(re, im, table).bytes

The library is the file that the environment variable ISDB_LIBRARY names, else libisdb.so.1 as the system finds it.
"""
import array
import collections
import ctypes
import os
import sys

# made by tools/declarations
VERSION = "1.0.0"
ISDB_VERSION_MAJOR = 1
ISDB_VERSION_MINOR = 0
ISDB_VERSION_PATCH = 0
ISDBS_SLOTS = 48
ISDBS_SLOT_SYMBOLS = 812
ISDBS_SLOT_BYTES = 203
ISDBS_MAIN_SYMBOLS = 38976
ISDBS_HEADER_SYMBOLS = 192
ISDBS_BURST_SYMBOLS = 768
ISDBS_FRAME_SYMBOLS = 39936
ISDBS_BYTES = 9744
ISDBS_STEPS = 68208
ISDBS_BITS = 68224
ISDBS_WORDS = 4224
ISDBS_SCALES = 7
ISDBS_RUNS = 4
ISDBS_RUN_NUMBERS = 6
ISDBS_WINDOW = 256
ISDBS_NO_TURN = 8
ISDB_PATH_VALUES = 64
ISDB_RELEASED = 4096
ISDB_TRACEBACK = 1024
ISDB_MEND_BITS = 8192
ISDB_MEND_PLACES = 4
ISDB_ANSWER_ACCEPTED = 0
ISDB_ANSWER_TABLE = 1
ISDB_ANSWER_POSITION = 2
ISDB_ANSWER_TRACEBACK = 3
ISDB_ANSWER_STATE = 4
ISDB_ANSWER_LENGTH = 5
ISDB_ANSWER_SYMBOLS = 6
ISDB_ANSWER_SAMPLE = 7
ISDB_ANSWER_SCALE = 8
ISDB_ANSWER_SPACE = 9
ISDB_ANSWER_PART_UNIT = 10
ISDB_ANSWER_RESERVED_WORD = 11
ISDB_ANSWER_CODE = 12
ISDB_ANSWER_NO_LOAD = 13
ISDB_ANSWER_WINDOW = 14
ISDB_ANSWER_UNMENDABLE = 15
ANSWERS = {
    0: "accepted",
    1: "the table takes more than 48 slots",
    2: "a bit is above 1,000,000, or a word is outside 1 to 7",
    3: "the traceback is 0 or above 1,024",
    4: "a state is out of its range",
    5: "a length does not fit",
    6: "there are fewer points than the call reads",
    7: "a sample is not a finite number or is beyond its limit, or a header has no size",
    8: "a scale is not above 0, or is above 64",
    9: "the space for what is written is too short",
    10: "the slots of an entry do not fill whole units",
    11: "an entry gives slots to a reserved word",
    12: "a code has a length of 3 to 7 and two generators of that length",
    13: "no full load has exactly these points",
    14: "a window is of 1 to 256 frames, and its state and sums are within their ranges",
    15: "no coded stretch between these states lies within four bits",
}
CALLS = {
    "isdb_version": " -> u32",
    "isdbs_soft": "x: f64 -> f32",
    "isdbs_slot_combinations": "table: u64, out: &mut [u8] -> u32",
    "isdbs_runs": "table: u64, out: &mut [u32], count: &mut u32 -> u32",
    "isdbs_bit_symbol": "word: u8, bit: u64, out: &mut u64 -> u32",
    "isdbs_encode_frame": "bytes: &[u8], table: u64, mapping: u8, state: u8, re: &mut [f64], im: &mut [f64], end: &mut u8 -> u32",
    "isdbs_decode_frame": "re: &[f64], im: &[f64], table: u64, mapping: u8, first: u8, known_start: u8, scales: &[f32], decisions: &mut [u64], bits: &mut [u8], bytes: &mut [u8], counts: &mut [u32], sum: &mut u32 -> u32",
    "isdbs_wanted_load": "re: &[f64], im: &[f64], table: u64, mapping: u8, first: u8, bytes: &mut [u8] -> u32",
    "isdbs_judge": "re: &[f64], im: &[f64], table: u64, mapping: u8, first: u8, bytes: &[u8], counts: &mut [u32], sum: &mut u32 -> u32",
    "isdbs_quality": "re: &[f64], im: &[f64], table: u64, mapping: u8, first: u8, bytes: &[u8], out: &mut [f64] -> u32",
    "isdbs_best_reading": "re: &[f64], im: &[f64], table: u64, mapping: u8, first: u8, known_start: u8, scales: &[f32], metrics: &mut [f32], sides: &mut [u8], words: &mut [u64], tables: &mut [u64], bits: &mut [u8], uncoded: &mut [u8], bytes: &mut [u8], leads: &mut [u64] -> u32",
    "isdbs_lay_frame": "header_re: &[f64], header_im: &[f64], main_re: &[f64], main_im: &[f64], burst_re: &[f64], burst_im: &[f64], re: &mut [f64], im: &mut [f64] -> u32",
    "isdbs_take_frame": "re: &[f64], im: &[f64], header_re: &mut [f64], header_im: &mut [f64], main_re: &mut [f64], main_im: &mut [f64], burst_re: &mut [f64], burst_im: &mut [f64] -> u32",
    "isdbs_header": "re: &[f64], im: &[f64], at: u64, kind: &mut u8, turn: &mut u8, re_sum: &mut i32, im_sum: &mut i32 -> u32",
    "isdbs_find_frame": "re: &[f64], im: &[f64], from: u64, place: &mut u64, kind: &mut u8, turn: &mut u8, re_sum: &mut i32, im_sum: &mut i32 -> u32",
    "isdbs_align_frame": "re: &[f64], im: &[f64], at: u64, out_re: &mut [f64], out_im: &mut [f64] -> u32",
    "isdbs_window_push": "window: u32, fill: &mut u32, next: &mut u32, clear: u8, sum: u32, kept: &mut [u32], total: &mut u32, greatest: &mut u32 -> u32",
    "isdb_push": "pm: &mut [f32], held: &mut u64, traceback: u64, pairs: &[f32], decisions: &mut [u64], out: &mut [u8], count: &mut u64 -> u32",
    "isdb_push_metrics": "pm: &mut [f32], held: &mut u64, traceback: u64, metrics: &[f32], decisions: &mut [u64], out: &mut [u8], count: &mut u64 -> u32",
    "isdb_push_known": "pm: &mut [f32], held: &mut u64, traceback: u64, bits: &[u8], decisions: &mut [u64], out: &mut [u8], count: &mut u64 -> u32",
    "isdb_flush": "pm: &mut [f32], held: &mut u64, traceback: u64, decisions: &mut [u64], out: &mut [u8], count: &mut u64 -> u32",
    "isdb_flush_at": "pm: &mut [f32], held: &mut u64, traceback: u64, end: u8, decisions: &mut [u64], out: &mut [u8], count: &mut u64 -> u32",
    "isdb_code_encode": "length: u8, g1: u8, g2: u8, state: &mut u8, bits: &[u8], out: &mut [u8] -> u32",
    "isdb_code_push": "length: u8, g1: u8, g2: u8, pm: &mut [f32], held: &mut u64, traceback: u64, pairs: &[f32], decisions: &mut [u64], out: &mut [u8], count: &mut u64 -> u32",
    "isdb_code_push_metrics": "length: u8, g1: u8, g2: u8, pm: &mut [f32], held: &mut u64, traceback: u64, metrics: &[f32], decisions: &mut [u64], out: &mut [u8], count: &mut u64 -> u32",
    "isdb_code_push_known": "length: u8, g1: u8, g2: u8, pm: &mut [f32], held: &mut u64, traceback: u64, bits: &[u8], decisions: &mut [u64], out: &mut [u8], count: &mut u64 -> u32",
    "isdb_code_flush": "length: u8, g1: u8, g2: u8, pm: &mut [f32], held: &mut u64, traceback: u64, decisions: &mut [u64], out: &mut [u8], count: &mut u64 -> u32",
    "isdb_code_flush_at": "length: u8, g1: u8, g2: u8, pm: &mut [f32], held: &mut u64, traceback: u64, end: u8, decisions: &mut [u64], out: &mut [u8], count: &mut u64 -> u32",
    "isdbt_encode_punctured": "rate: u8, state: &mut u8, bits: &[u8], out: &mut [u8], count: &mut u64 -> u32",
    "isdbt_depuncture": "rate: u8, llrs: &[f32], out: &mut [f32], count: &mut u64 -> u32",
    "isdbt_decode_punctured": "rate: u8, llrs: &[f32], traceback: u64, decisions: &mut [u64], out: &mut [u8], count: &mut u64 -> u32",
    "isdb_mend": "bits: &[u8], start: u8, end: u8, decisions: &mut [u64], out: &mut [u8], places: &mut [u32], count: &mut u64 -> u32",
}
# end of what tools/declarations makes

FORMS = {"u8": ("B", ctypes.c_uint8), "u32": ("I", ctypes.c_uint32), "i32": ("i", ctypes.c_int32), "u64": ("Q", ctypes.c_uint64), "f32": ("f", ctypes.c_float), "f64": ("d", ctypes.c_double)}
SAME = {"L": "Q" if ctypes.sizeof(ctypes.c_long) == 8 else "I", "l": "i" if ctypes.sizeof(ctypes.c_long) == 4 else "q"}  # what C calls long
CARRIED = ("held", "fill", "next", "state")  # numbers behind pointers that a call also reads


class Refused(ValueError):
    """The library turned a call back: `number` is the answer (ISDB_ANSWER_..), `words` says it."""

    def __init__(self, call, number):
        self.call, self.number, self.words = call, number, answer_text(number)
        super().__init__("%s refused %d: %s" % (call, number, self.words))


def answer_text(number):
    """An answer in words."""
    return ANSWERS.get(number, "no such answer")


def environment_ok():
    """Whether floats of this thread round to nearest and keep subnormals, as every call needs it (isdb_environment_ok of the header)."""
    one, little, least = [1.0], [1.0e-17], [sys.float_info.min]
    return one[0] + little[0] == one[0] and one[0] - little[0] == one[0] and least[0] * 0.5 * 2.0 == least[0]


def lent(value, kind, written, name):
    """The address of a slice's elements, how many there are, and what must live until the call ends."""
    code, form = FORMS[kind]
    if isinstance(value, (list, tuple)) and not written:
        value = array.array(code, value)
    view = memoryview(value)
    if not view.c_contiguous:
        raise TypeError("%s: the elements must lie in one piece" % name)
    own = view.format.lstrip("@=<")
    if SAME.get(own, own) != code and not (code == "B" and own in ("b", "c", "?")):
        raise TypeError("%s: elements of type '%s' are wanted, not '%s'" % (name, code, view.format))
    if written and view.readonly:
        raise TypeError("%s: the call writes it, and it is read-only" % name)
    count = view.nbytes // ctypes.sizeof(form)
    if count == 0:
        spare = form()
        return ctypes.addressof(spare), 0, spare
    if not view.readonly:
        whole = (form * count).from_buffer(view.cast("B"))
        return ctypes.addressof(whole), count, whole
    if isinstance(value, bytes):
        return ctypes.cast(ctypes.c_char_p(value), ctypes.c_void_p).value, count, value
    if hasattr(value, "__array_interface__"):
        return value.__array_interface__["data"][0], count, value
    whole = (form * count).from_buffer_copy(view.cast("B"))
    return ctypes.addressof(whole), count, whole


def number(value, kind, name):
    """A number of the type, none cut off."""
    form = FORMS[kind][1]
    if kind not in ("f32", "f64"):
        value = value.__index__()
        if form(value).value != value:
            raise OverflowError("%s: %d is out of range for %s" % (name, value, kind))
    return form(value)


def parameters(signature):
    """(name, type, form) of each parameter: "number", "place" (a number behind a pointer), "read" or "written" (a slice)."""
    found = []
    for word in signature.split(" -> ")[0].split(", "):
        if word:
            name, kind = word.split(": ")
            form = "written" if kind.startswith("&mut [") else "read" if kind.startswith("&[") else "place" if kind.startswith("&mut ") else "number"
            found.append((name, kind.replace("&", "").replace("mut ", "").strip("[]"), form))
    return found


def bound(library, name, signature):
    """The function of a call."""
    own = parameters(signature)
    entry = getattr(library, name)
    entry.restype = FORMS[signature.split(" -> ")[1]][1]
    entry.argtypes = []
    for _, kind, form in own:
        entry.argtypes += {"number": [FORMS[kind][1]], "place": [ctypes.POINTER(FORMS[kind][1])]}.get(form, [ctypes.c_void_p, ctypes.c_size_t])
    wanted = [p for p in own if p[2] != "place" or p[0] in CARRIED]
    plain = name in ("isdb_version", "isdbs_soft")

    def call(*arguments):
        if len(arguments) != len(wanted):
            raise TypeError("%s takes %d arguments (%s), not %d" % (name, len(wanted), ", ".join(p[0] for p in wanted), len(arguments)))
        given, handed, kept, places = iter(arguments), [], [], []
        for own_name, kind, form in own:
            if form == "place":
                places.append(number(next(given), kind, own_name) if own_name in CARRIED else FORMS[kind][1]())
                handed.append(ctypes.byref(places[-1]))
            elif form == "number":
                handed.append(number(next(given), kind, own_name))
            else:
                address, count, whole = lent(next(given), kind, form == "written", own_name)
                handed += [address, count]
                kept.append(whole)
        answer = entry(*handed)
        if plain:
            return answer
        if answer != 0:
            raise Refused(name, answer)
        results = tuple(place.value for place in places)
        return None if not results else results[0] if len(results) == 1 else results

    call.__name__ = call.__qualname__ = name
    call.__doc__ = "%s(%s), see include/isdb.h" % (name, ", ".join(p[0] for p in wanted))
    return call


def load():
    library = ctypes.CDLL(os.environ.get("ISDB_LIBRARY") or "libisdb.so.%d" % ISDB_VERSION_MAJOR)
    for name, signature in CALLS.items():
        globals()[name] = bound(library, name, signature)
    if globals()["isdb_version"]() // 10000 != ISDB_VERSION_MAJOR:
        raise ImportError("libisdb has version %d, and this module is for %s" % (globals()["isdb_version"](), VERSION))


load()


def zeros(kind, count):
    """An array of `count` zeros of type "u8", "u32", "u64", "f32" or "f64"."""
    return array.array(FORMS[kind][0], bytes(count * ctypes.sizeof(FORMS[kind][1])))


def table(*entries):
    """The number of a table of up to four (word, slots)."""
    if len(entries) > 4:
        raise ValueError("a table has at most four entries")
    whole = 0
    for i, (word, slots) in enumerate(list(entries) + [(15, 0)] * (4 - len(entries))):
        whole |= number(word, "u8", "word").value << 16 * i | number(slots, "u8", "slots").value << 16 * i + 8
    return whole


def runs(table):
    """The runs of a table, each (word, slot start, slot end, valid slots, symbol start, symbol end)."""
    out = zeros("u32", ISDBS_RUNS * ISDBS_RUN_NUMBERS)
    count = isdbs_runs(table, out)
    return [tuple(out[i * ISDBS_RUN_NUMBERS:(i + 1) * ISDBS_RUN_NUMBERS]) for i in range(count)]


def valid_slots(table):
    return sum(run[3] for run in runs(table))


def steps(table):
    """The trellis steps of a frame: 812 for a valid slot of TC8PSK, 1,624 for another."""
    return sum(run[3] * (812 if run[0] == 7 else 1624) for run in runs(table))


Reading = collections.namedtuple("Reading", "bytes bits counts sum")
Best = collections.namedtuple("Best", "bytes leads bits uncoded")
Header = collections.namedtuple("Header", "kind turn re_sum im_sum")
Found = collections.namedtuple("Found", "place kind turn re_sum im_sum")
Verdict = collections.namedtuple("Verdict", "counts sum")
Quality = collections.namedtuple("Quality", "points signal error turned offset")
EIGHTS = array.array("f", [8.0] * ISDBS_SCALES)


def encode_frame(load, table, mapping=4, state=0):
    """Makes a frame: real parts, imaginary parts, and the encoder's state after it."""
    re, im = zeros("f64", ISDBS_MAIN_SYMBOLS), zeros("f64", ISDBS_MAIN_SYMBOLS)
    return re, im, isdbs_encode_frame(load, table, mapping, state, re, im)


def decode_frame(re, im, table, mapping=4, first=True, known_start=True, scales=EIGHTS):
    """Reads a frame: a Reading of its bytes, decoded bits, strained steps of each valid slot and their sum."""
    slots, bits = valid_slots(table), zeros("u8", steps(table) + 16)
    out, counts = bytearray(ISDBS_SLOT_BYTES * slots), zeros("u32", slots)
    total = isdbs_decode_frame(re, im, table, mapping, first, known_start, scales, zeros("u64", ISDBS_WORDS), bits, out, counts)
    return Reading(bytes(out), bits, counts, total)


def best_reading(re, im, table, mapping=4, first=True, known_start=True, scales=EIGHTS):
    """The best reading of a frame: a Best of its bytes, the lead of each valid slot in units of 2^-20, the input and the C2 of each step."""
    slots, n = valid_slots(table), steps(table)
    out, leads, bits, uncoded = bytearray(ISDBS_SLOT_BYTES * slots), zeros("u64", slots), zeros("u8", n), zeros("u8", n)
    isdbs_best_reading(re, im, table, mapping, first, known_start, scales, zeros("f32", 4 * n), zeros("u8", n), zeros("u64", n), zeros("u64", 64 * slots), bits, uncoded, out, leads)
    return Best(bytes(out), leads, bits, uncoded)


def judge(re, im, load, table, mapping=4, first=True):
    """The verdict on a load: points outside its margins in each of the 48 slots, and their sum; 0 means that the frame is certain."""
    counts = zeros("u32", ISDBS_SLOTS)
    total = isdbs_judge(re, im, table, mapping, first, load, counts)
    return Verdict(counts, total)


def quality(re, im, load, table, mapping=4, first=True):
    """The points against those of a load: for each of the 48 slots a Quality of how many are counted, the sums of |c|^2 and |z - c|^2, those of z conj(c) and of z - c."""
    out = zeros("f64", 7 * ISDBS_SLOTS)
    isdbs_quality(re, im, table, mapping, first, load, out)
    return [Quality(out[j], out[j + 1], out[j + 2], complex(out[j + 3], out[j + 4]), complex(out[j + 5], out[j + 6])) for j in range(0, len(out), 7)]


def wanted_load(re, im, table, mapping=4, first=True):
    """The full load that encodes to exactly these points."""
    out = bytearray(ISDBS_SLOT_BYTES * valid_slots(table))
    isdbs_wanted_load(re, im, table, mapping, first, out)
    return bytes(out)


def header(re, im, at=0):
    """What the header says of the frame that begins at point `at`."""
    return Header(*isdbs_header(re, im, at))


def find_frame(re, im, start=0):
    """The place of the frame from `start` on whose header fits best, and what it says; turn is ISDBS_NO_TURN where there is none."""
    return Found(*isdbs_find_frame(re, im, start))


def align_frame(re, im, at=0):
    """The full frame at point `at`, turned right and of the size that it was sent with."""
    out_re, out_im = zeros("f64", ISDBS_FRAME_SYMBOLS), zeros("f64", ISDBS_FRAME_SYMBOLS)
    isdbs_align_frame(re, im, at, out_re, out_im)
    return out_re, out_im
