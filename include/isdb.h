/* ISDB-S frames and the inner code of ISDB: the calls of the crates of C calls (c_fec, c_isdbt, c_table, c_frame, c_short, c_wanted, c_mend, c_judge, c_quality, c_header, c_best, c_version).
 *
 * `tools/archive` writes libisdb.a and libisdb.so, `tools/install PREFIX` installs them with this header and isdb.pc (x86-64 Linux); then `pkg-config --cflags --libs isdb` says how to build.
 * No call allocates, keeps anything or prints. C11 and C++17.
 *
 * A slice is a pointer and a length, in elements. A pointer must be aligned and good for that many elements, and not NULL also where the length is 0 (it is then not read).
 * A pointer to a number must be good for that number. Slices and numbers that a call writes must not overlap other slices or numbers that are lent to it.
 * Floats of the calling thread must round to nearest, and subnormals must count: the default. A program linked with -ffast-math, a flush to zero or fesetround breaks this, and then answers and
 * outputs can be others. isdb_environment_ok tests it: assert it once in each thread that calls.
 *
 * Every call but isdbs_soft returns 0 where it accepts, else the number of the first row of this table that holds, from the top. Refused, every lent
 * number and slice is as before. Accepted, what is not said to be written is as before. (A NaN stays a NaN; its bits are free.)
 *
 *   1 table      slot counts sum above 48
 *  10 part unit  an entry of words 1 to 7 whose slots do not fill whole units
 *  11 reserved   an entry of word 0 or 8 to 14 with slots
 *   2 position   bit above 1,000,000; word outside 1 to 7
 *   3 traceback  above 1,024, or 0 in a handed state
 *  12 code       a constraint length outside 3 to 7; a generator not below 2^length or without its top bit (isdb_code_*)
 *   4 state      held count 4,096 + traceback or more; encoder state above 63 (of isdb_code_encode: 2^(length-1) or more); lent path value not finite or beyond 2^32
 *  14 window     outside 1 to 256; fill above it; next not below it or, while the window is not full, unlike fill; a pushed or kept sum above 68,208
 *   5 length     metrics not in fours, soft values not in twos, stream not whole periods; path values not 64; scales not seven; an unknown rate; a
 *                stretch to be mended not in twos, above 8,192 bits, or with a byte above 1; bytes that are not exactly
 *                the load (isdbs_judge, isdbs_quality)
 *   6 symbols    under 38,976 of either part; for a full frame an input shorter than its length (isdbs_lay_frame, isdbs_take_frame); for a frame in a capture fewer than its
 *                place + 39,936 points (isdbs_header, isdbs_find_frame, isdbs_align_frame)
 *   7 sample     not finite; beyond 65,536 for a frame part, 1,048,576 for a stream value; a header whose mean has no size above 0 (isdbs_align_frame)
 *   8 scale      a scale not above 0, or above 64
 *   9 space      an output or decision slice shorter than the call writes; decisions always need 4,096 + traceback
 *  13 no load    no full load encodes to the frame (isdbs_wanted_load)
 *  15 unmendable no coded stretch between the two states lies within four bits (isdb_mend)
 *
 * A table is one number: entry i (0 to 3) has its word in bits 16i to 16i+7, of which the low 4 count, and its slot count in bits 16i+8 to 16i+15.
 * Words 1 to 7 are BPSK 1/2, QPSK 1/2, 2/3, 3/4, 5/6, 7/8 and TC8PSK 2/3, in units of 4, 2, 3, 4, 6, 8 and 1 slots. 15 takes its slots and sends nothing; with 0 slots it is
 * an entry not in use. The others are reserved and take no slots.
 *
 * A mapping is one byte: bit 0 conjugate, bit 1 qpsk_p1_on_q, bit 2 tc8psk_c1_is_y (4 is the usual one). Its other bits do not count.
 *
 * Example (compare/c/example.c; compare/c/families.c has one for each family of calls):
 *
 *   #include <stdio.h>
 *   #include "isdb.h"
 *
 *   static double re[38976], im[38976];
 *   static uint64_t decisions[4224];
 *   static uint8_t bits[7 * 1624 + 16], bytes[7 * 203];
 *   static uint32_t counts[7], sum;
 *
 *   int main(void) {
 *       uint64_t table = 6 | 8 << 8 | (uint64_t)0x000f000f000f << 16; // 8 slots of QPSK 7/8, of which 7 are valid; no other entry
 *       uint8_t load[7 * 203], end;
 *       float scales[7] = {8, 8, 8, 8, 8, 8, 8}; // of words 1 to 7
 *       for (int i = 0; i < 7 * 203; i++) load[i] = (uint8_t)(i * 37);
 *       uint32_t made = isdbs_encode_frame(load, sizeof load, table, 4, 0, re, 38976, im, 38976, &end);
 *       uint32_t read = isdbs_decode_frame(re, 38976, im, 38976, table, 4, 1, 1, scales, 7, decisions, 4224, bits, sizeof bits, bytes, sizeof bytes, counts, 7, &sum);
 *       int same = 0;
 *       for (int i = 0; i < 7 * 203; i++) same += bytes[i] == load[i];
 *       printf("answers %u and %u, %d of %d bytes the same, %u steps strained\n", made, read, same, 7 * 203, sum);
 *       return 0;
 *   }
 *
 *   cc example.c $(pkg-config --cflags --libs isdb)
 *
 * Buffers, in elements, that serve every table (a call asks only for what its own table needs; row 9 says that one is too short):
 *
 *   re, im            double    ISDBS_MAIN_SYMBOLS    points of a frame without header and bursts; of a full frame ISDBS_FRAME_SYMBOLS
 *   bytes             uint8_t   ISDBS_BYTES           the load: ISDBS_SLOT_BYTES for each valid slot, in order
 *   decisions         uint64_t  ISDBS_WORDS           isdbs_decode_frame, isdb_mend; of a decoder with traceback T: ISDB_RELEASED + T
 *   bits              uint8_t   ISDBS_BITS            isdbs_decode_frame; isdbs_best_reading ISDBS_STEPS
 *   counts            uint32_t  ISDBS_SLOTS           isdbs_decode_frame (valid slots), isdbs_judge (all slots)
 *   metrics           float     4 * ISDBS_STEPS       isdbs_best_reading
 *   sides, uncoded    uint8_t   ISDBS_STEPS           isdbs_best_reading
 *   words             uint64_t  ISDBS_STEPS           isdbs_best_reading
 *   tables            uint64_t  64 * ISDBS_SLOTS      isdbs_best_reading
 *   leads             uint64_t  ISDBS_SLOTS           isdbs_best_reading
 *   out               double    7 * ISDBS_SLOTS       isdbs_quality
 *   scales            float     ISDBS_SCALES          exactly
 *   pm                float     ISDB_PATH_VALUES      exactly
 *   places            uint32_t  ISDB_MEND_PLACES      isdb_mend
 *   kept              uint32_t  ISDBS_WINDOW          isdbs_window_push
 */
#ifndef ISDB_H
#define ISDB_H

#include <float.h>
#include <stddef.h>
#include <stdint.h>

/* The version. isdb_version() says that of the library that is linked: 10,000 times the first number, 100 times the second, and the third. The first changes where a caller must change; the shared
 * library's name has it (libisdb.so.1). */
#define ISDB_VERSION_MAJOR 1
#define ISDB_VERSION_MINOR 0
#define ISDB_VERSION_PATCH 0
#define ISDB_VERSION (10000 * ISDB_VERSION_MAJOR + 100 * ISDB_VERSION_MINOR + ISDB_VERSION_PATCH)
#define ISDB_VERSION_STRING "1.0.0"

/* A frame. */
#define ISDBS_SLOTS 48           /* slots */
#define ISDBS_SLOT_SYMBOLS 812   /* points of a slot */
#define ISDBS_SLOT_BYTES 203     /* bytes of a valid slot */
#define ISDBS_MAIN_SYMBOLS 38976 /* points of the main signal: 48 slots */
#define ISDBS_HEADER_SYMBOLS 192 /* points of the header */
#define ISDBS_BURST_SYMBOLS 768  /* points of the 192 bursts */
#define ISDBS_FRAME_SYMBOLS 39936 /* points of a full frame: header, main and burst points */
#define ISDBS_BYTES 9744         /* bytes of a load, at most */
#define ISDBS_STEPS 68208        /* trellis steps, at most */
#define ISDBS_BITS 68224         /* decoded bits, at most: steps and 16 */
#define ISDBS_WORDS 4224         /* decision words: 4,096 and a traceback of 128 */
#define ISDBS_SCALES 7           /* scales, of words 1 to 7 */
#define ISDBS_RUNS 4             /* runs, at most */
#define ISDBS_RUN_NUMBERS 6      /* numbers of a run */
#define ISDBS_WINDOW 256         /* sums of a window, at most */
#define ISDBS_NO_TURN 8          /* *turn where there is no frame */

/* The decoder. */
#define ISDB_PATH_VALUES 64      /* path values, at every constraint length */
#define ISDB_RELEASED 4096       /* bits that leave at once; a decoder holds fewer than 4,096 + traceback words */
#define ISDB_TRACEBACK 1024      /* traceback, at most */
#define ISDB_MEND_BITS 8192      /* bits of a stretch to be mended, at most */
#define ISDB_MEND_PLACES 4       /* wrong bits that are mended, at most */

/* The answers. */
enum isdb_answer {
    ISDB_ANSWER_ACCEPTED = 0,
    ISDB_ANSWER_TABLE = 1,
    ISDB_ANSWER_POSITION = 2,
    ISDB_ANSWER_TRACEBACK = 3,
    ISDB_ANSWER_STATE = 4,
    ISDB_ANSWER_LENGTH = 5,
    ISDB_ANSWER_SYMBOLS = 6,
    ISDB_ANSWER_SAMPLE = 7,
    ISDB_ANSWER_SCALE = 8,
    ISDB_ANSWER_SPACE = 9,
    ISDB_ANSWER_PART_UNIT = 10,
    ISDB_ANSWER_RESERVED_WORD = 11,
    ISDB_ANSWER_CODE = 12,
    ISDB_ANSWER_NO_LOAD = 13,
    ISDB_ANSWER_WINDOW = 14,
    ISDB_ANSWER_UNMENDABLE = 15
};

#ifdef __cplusplus
extern "C" {
#endif

/* An answer in words. */
static inline const char *isdb_answer_text(uint32_t answer) {
    switch (answer) {
    case ISDB_ANSWER_ACCEPTED: return "accepted";
    case ISDB_ANSWER_TABLE: return "the table takes more than 48 slots";
    case ISDB_ANSWER_POSITION: return "a bit is above 1,000,000, or a word is outside 1 to 7";
    case ISDB_ANSWER_TRACEBACK: return "the traceback is 0 or above 1,024";
    case ISDB_ANSWER_STATE: return "a state is out of its range";
    case ISDB_ANSWER_LENGTH: return "a length does not fit";
    case ISDB_ANSWER_SYMBOLS: return "there are fewer points than the call reads";
    case ISDB_ANSWER_SAMPLE: return "a sample is not a finite number or is beyond its limit, or a header has no size";
    case ISDB_ANSWER_SCALE: return "a scale is not above 0, or is above 64";
    case ISDB_ANSWER_SPACE: return "the space for what is written is too short";
    case ISDB_ANSWER_PART_UNIT: return "the slots of an entry do not fill whole units";
    case ISDB_ANSWER_RESERVED_WORD: return "an entry gives slots to a reserved word";
    case ISDB_ANSWER_CODE: return "a code has a length of 3 to 7 and two generators of that length";
    case ISDB_ANSWER_NO_LOAD: return "no full load has exactly these points";
    case ISDB_ANSWER_WINDOW: return "a window is of 1 to 256 frames, and its state and sums are within their ranges";
    case ISDB_ANSWER_UNMENDABLE: return "no coded stretch between these states lies within four bits";
    default: return "no such answer";
    }
}

/* The version of the library that is linked, as ISDB_VERSION has it. Crate c_version. */
uint32_t isdb_version(void);

/* Whether floats of this thread are computed as every call here needs it: rounded to nearest, subnormals kept. It computes, so it sees the setting that is in force (fegetround need not), and volatile
 * keeps the compiler from knowing the result. */
static inline int isdb_environment_ok(void) {
    volatile float one = 1.0f, little = 1.0e-8f, least = FLT_MIN;
    volatile float above = one + little, below = one - little, half = least * 0.5f;
    volatile float twice = half * 2.0f;
    return above == one && below == one && twice == least;
}

/* A soft value from a double, rounded as the decoder does it: the f32 nearest to x, ties to even, small values included. Any x. */
float isdbs_soft(double x);

/* Which combination each slot has: the words of the 48 slots, 0 for a slot without a mark; as many are marked as are valid. Writes 48 places. Rows 1, 10, 11, 9. */
uint32_t isdbs_slot_combinations(uint64_t table, uint8_t *out, size_t out_len);

/* Where each combination stands in a frame: its runs, in order. For each: word, slot start, slot end, valid slots, symbol start, symbol end; an end is one past the last.
 * Writes 6 numbers for each run, of which there are at most 4, and how many runs there are to *count. Rows 1, 10, 11, 9. */
uint32_t isdbs_runs(uint64_t table, uint32_t *out, size_t out_len, uint32_t *count);

/* Where an information bit is sent: the symbol, from the start of its run, that carries the first coded bit of information bit `bit`. Row 2. */
uint32_t isdbs_bit_symbol(uint8_t word, uint64_t bit, uint64_t *out);

/* Makes a frame: its 38,976 points as real and imaginary parts, from its bytes (203 for each valid slot; missing bits are 0, surplus ones ignored), the
 * encoder starting at `state`: 0 for the first frame of a superframe and 63 for the others. *end is its state after the last bit. Points outside
 * every run are (0, 0), (0, -0.0) where the mapping conjugates. Needs 38,976 places of either part and writes as many. Rows 1, 10, 11, 4, 9. */
uint32_t isdbs_encode_frame(const uint8_t *bytes, size_t bytes_len, uint64_t table, uint8_t mapping, uint8_t state,
                            double *re, size_t re_len, double *im, size_t im_len, uint8_t *end);

/* Reads a frame: its bytes from its 38,976 points; points past them are not read. `first`: the first frame of a superframe (any number but 0).
 * `known_start`: the decoder starts in that frame's start state (any number but 0), else in no known one. `scales` (usually all 8) has seven scales of the
 * soft values in the order of words 1 to 7: a run is read with the scale of its combination. Row 5: they are not seven; row 8 is of any of them, used or not.
 * Afterwards `bits` begins with steps + 16 decoded bits, one in a byte, the first 4,224 words of `decisions` are 0, and `bytes` begins with 203 bytes
 * for each valid slot. A trellis step is an information bit; TC8PSK takes two bits a step. At most 68,224 bits and 9,744 bytes.
 * `counts` begins with the strained steps of each valid slot (812 steps to a TC8PSK slot, 1,624 to another; at most 48 slots), and *sum is their sum, at most
 * 68,208. A step is strained if one of its four branch metrics is greater than that of the coded bits that the decoded ones give again. 0 does not mean that the
 * frame is good. Takes about 87 kB of stack (tools/stack). Rows 1, 10, 11, 5, 6, 7, 8, 9. */
uint32_t isdbs_decode_frame(const double *re, size_t re_len, const double *im, size_t im_len, uint64_t table, uint8_t mapping,
                            uint8_t first, uint8_t known_start, const float *scales, size_t scales_len,
                            uint64_t *decisions, size_t decisions_len, uint8_t *bits, size_t bits_len, uint8_t *bytes, size_t bytes_len,
                            uint32_t *counts, size_t counts_len, uint32_t *sum);

/* The bytes behind a wanted frame: the full load (203 bytes for each valid slot) that encodes, from the start state for `first` (any number but 0 for the first
 * frame of a superframe), to exactly the f64 bits of the first 38,976 points, unused points included. There is at most one. Points past them are not read, and
 * a NaN is in no frame. Row 13: no full load encodes to the frame; `bytes` is as it was. Takes about 52 kB of stack. Rows 1, 10, 11, 6, 9, 13. */
uint32_t isdbs_wanted_load(const double *re, size_t re_len, const double *im, size_t im_len, uint64_t table, uint8_t mapping,
                           uint8_t first, uint8_t *bytes, size_t bytes_len);

/* The verdict: the points of a frame with a part outside the margins of a full load. `bytes` is exactly the load (203 for each valid slot), `first` as above. A margin, per part as lent, is
 * from -1/32 to 1/32 where the encoded part is 0, from 31/32 to 33/32 where it is 1 and from 87/128 to 94/128 where it is 1/sqrt(2), negatives mirrored, inclusive; imaginary parts of
 * BPSK and points outside every run may hold anything that row 7 accepts. `counts` begins with the points outside in each of the frame's 48 slots, slot j being points 812j to 812j + 811
 * (whatever the table has there), and *sum is their sum, at most 38,976. Where *sum is 0 the frame is certain: under this table, mapping and kind no other full load has the points within its margins. Where it is not, the bytes
 * may still be right. Points past 38,976 are not read, counts past 48 not written. Takes about 42 kB of stack. Rows 1, 10, 11, 5 (bytes not exactly the load), 6, 7, 9. Crate c_judge. */
uint32_t isdbs_judge(const double *re, size_t re_len, const double *im, size_t im_len, uint64_t table, uint8_t mapping,
                     uint8_t first, const uint8_t *bytes, size_t bytes_len, uint32_t *counts, size_t counts_len, uint32_t *sum);

/* The quality of a reading: sums of the received points of a frame against the points of a full load. `bytes` is exactly the load (203 for each valid slot), `first` as above. `out` begins with
 * seven numbers for each of the frame's 48 slots, slot j being points 812j to 812j + 811 (whatever the table has there) and its numbers places 7j to 7j + 6. With z a received point and c the
 * point that the load encodes to there:
 *
 *   7j        how many points are counted
 *   7j + 1    the sum of |c|^2, the signal's power
 *   7j + 2    the sum of |z - c|^2, the error's
 *   7j + 3, 4 the real and the imaginary part of the sum of z conj(c): over the signal's power they are the mean gain and turn
 *   7j + 5, 6 the real and the imaginary part of the sum of z - c: over the count they are the mean offset
 *
 * A point outside every run is not counted, and a slot without counted points has seven times 0; of BPSK the imaginary parts of z and c count as 0. Every sum begins at 0 and goes over the slot's
 * points in order, each operation rounded once, with |x|^2 as x.re x.re + x.im x.im and z conj(c) as (z.re c.re + z.im c.im, z.im c.re - z.re c.im): so all numbers are the same on every machine.
 * Nothing is promised of what they say about the receiver or the bytes. Points past 38,976 are not read, places of `out` past 336 not written. Takes about 42 kB of stack. Rows 1, 10, 11, 5 (bytes
 * not exactly the load), 6, 7, 9 (`out` under 336). Crate c_quality. */
uint32_t isdbs_quality(const double *re, size_t re_len, const double *im, size_t im_len, uint64_t table, uint8_t mapping,
                       uint8_t first, const uint8_t *bytes, size_t bytes_len, double *out, size_t out_len);

/* The best reading of a frame: the full load (203 bytes for each valid slot) that fits the 38,976 points best of all, and by how much it leads in each valid slot. `re` to `scales` as in
 * isdbs_decode_frame, whose metrics count here too: four to a trellis step, as whole numbers of units of 2^-20, cut toward zero. A load fits by the sum, over its steps, of the metric at the coded
 * pair that it sends there; at a TC8PSK step the metric counts negative where the load's C2 is not the better one. With a known start the load is sent from that frame's start state, else from whichever
 * of the 64 states serves it best. The frame's end is open. No full load fits better than `bytes`; of equals it is the first by the decoder's ties (the highest end state, then the odd
 * predecessor), and of two C2 that fit alike the one that isdbs_decode_frame takes. leads[k], in units of 2^-20: every full load that differs in slot k fits worse by this much at least, and
 * one by exactly this much; 0 exactly where another content of slot k fits as well. A lead is a distance between readings and no proof: a short strong burst can move the best reading and lead well.
 * Afterwards `bits` begins with the input of each trellis step, `uncoded` with its C2 (0 outside TC8PSK), `bytes` with the load, `leads` with the leads. `metrics` (4 a step), `sides`, `words`
 * (one a step) and `tables` (64 a valid slot) are worked in: free in that front. At most 68,208 steps, 48 slots, 9,744 bytes. Takes about 18 kB of stack. Rows 1, 10, 11, 5, 6, 7, 8, 9. Crate c_best.
 *
 * Leads of a clean frame at scale 8 (at another scale nearly in proportion), by word; the last slot's is smaller because the end is open, and so is the first slot's where the start is not known:
 *
 *                            1            2            3           4           5           6           7
 *   a slot           167772160    118632830     71179696    59316411    47453128    35589846    16777216     (160, 113.1, 67.9, 56.6, 45.3, 33.9, 16)
 *   the last          33554432     23726566     11863282    11863282    11863282    11863282     8388608     (32, 22.6, 11.3, 11.3, 11.3, 11.3, 8)
 *   the first, start
 *   not known         83886080     59316415     35589847    23726565    23726564    11863282     8388608     (80, 56.6, 33.9, 22.6, 22.6, 11.3, 8)
 *
 * A slot beside a run of another combination can have a smaller one too (56684842 of a BPSK slot before TC8PSK). What to compare a capture's leads with is best had from the clean frame of the
 * same bytes (isdbs_encode_frame, then this call). */
uint32_t isdbs_best_reading(const double *re, size_t re_len, const double *im, size_t im_len, uint64_t table, uint8_t mapping,
                            uint8_t first, uint8_t known_start, const float *scales, size_t scales_len,
                            float *metrics, size_t metrics_len, uint8_t *sides, size_t sides_len, uint64_t *words, size_t words_len,
                            uint64_t *tables, size_t tables_len, uint8_t *bits, size_t bits_len, uint8_t *uncoded, size_t uncoded_len,
                            uint8_t *bytes, size_t bytes_len, uint64_t *leads, size_t leads_len);

/* Puts a frame's header, main and burst points together and takes them apart: full frames of 39,936 symbols, as real and imaginary parts: 192 header points at places 0 to 191, then 192 times 203 main points and a burst of 4.
 * Symbol j of burst b is point 4b + j of the burst's 768. Points are only copied, NaN and infinities too (a NaN's bits are free); those past 192, 38,976,
 * 768 and 39,936 are neither read nor written.
 *
 * isdbs_lay_frame   a full frame from header, main and burst points.   Rows 6 (any of the six inputs), 9 (either output).
 * isdbs_take_frame  header, main and burst points of a full frame.   Rows 6 (either part), 9 (any of the six outputs).
 */
uint32_t isdbs_lay_frame(const double *header_re, size_t header_re_len, const double *header_im, size_t header_im_len,
                         const double *main_re, size_t main_re_len, const double *main_im, size_t main_im_len,
                         const double *burst_re, size_t burst_re_len, const double *burst_im, size_t burst_im_len,
                         double *re, size_t re_len, double *im, size_t im_len);
uint32_t isdbs_take_frame(const double *re, size_t re_len, const double *im, size_t im_len,
                          double *header_re, size_t header_re_len, double *header_im, size_t header_im_len,
                          double *main_re, size_t main_re_len, double *main_im, size_t main_im_len,
                          double *burst_re, size_t burst_re_len, double *burst_im, size_t burst_im_len);

/* Finds whole frames in a capture and turns them right, by the 40 header symbols that every frame has: symbols 12 to 31 carry W1's coded tail ECD28h, 172 to 191 W2's 0B677h (first frame of a superframe) or its
 * complement F4988h (W3, the others), high bit first, +1 for bit 0 and -1 for bit 1. A part scores +1 where its sign is that of the symbol, -1 where it is the other, 0 where it is 0 or a
 * NaN. a1 and b1 are the scores of the real and the imaginary parts over W1's symbols, a2 and b2 over W2's; k is 1 where a1 a2 + b1 b2 is above 0, else -1. A = a1 + k a2 (*re_sum) and
 * B = b1 + k b2 (*im_sum) are from -40 to 40; *kind is 1 where k is 1 (first frame), else 0. The mean c is the sum of the 40 symbols, each times its sign (those of W2 times k), begun at 0
 * and in order, divided by 40, each operation rounded; d = c.re c.re + c.im c.im. *turn is in eighths of a turn by the nearest axis or diagonal of c, t being tan(22.5 degrees): 0 or 4
 * by the sign of c.re where |c.im| <= t |c.re|, else 2 or 6 by the sign of c.im where |c.re| <= t |c.im|, else 1 (both above 0), 3 (c.re below), 5 (both below) or 7; 8 (none) where A A + B B is below 784 or d is not above 0. A carrier that drifts by more than a quarter of a
 * turn from W1 to W2 (45 kHz at 28.86 MBd) gives the other kind.
 *
 * isdbs_header       what the header says of the frame that begins at point `at`.   Row 6.
 * isdbs_find_frame   of all places from `from` on at which a frame still fits, the first with the greatest A A + B B, to *place, and what isdbs_header says there; *turn is 8 (no frame)
 *                    where that greatest is below 1,296.   Row 6.
 * isdbs_align_frame  the 39,936 points from `at` on, turned right and of the size that they were sent with: ((re c.re + im c.im) / d, (im c.re - re c.im) / d), each operation rounded.
 *                    Points past the outputs' 39,936 places are not written. Rows 6, 7 (of the 39,936 points, or d not above 0), 9.
 */
uint32_t isdbs_header(const double *re, size_t re_len, const double *im, size_t im_len, uint64_t at, uint8_t *kind, uint8_t *turn,
                      int32_t *re_sum, int32_t *im_sum);
uint32_t isdbs_find_frame(const double *re, size_t re_len, const double *im, size_t im_len, uint64_t from, uint64_t *place, uint8_t *kind,
                          uint8_t *turn, int32_t *re_sum, int32_t *im_sum);
uint32_t isdbs_align_frame(const double *re, size_t re_len, const double *im, size_t im_len, uint64_t at, double *out_re, size_t out_re_len,
                           double *out_im, size_t out_im_len);

/* Watches a run of frames: the last sums of strained steps, `window` of them at most (1 to 256), with their total and greatest. The state is the caller's: how many sums are
 * kept (*fill) and the place of the next one (*next), both 0 at first; `kept` has the sums, the first *fill places. A push keeps `sum` at the next
 * place, or, where `clear` is not 0, forgets all earlier sums and keeps it at place 0; no other place is written. *fill becomes one more, at most `window` (1 after a
 * clearing push), and *next the place after that of the sum, 0 after the last. *total and *greatest are written and
 * not read: what the last `window` accepted sums since the last clearing push, or all when fewer, give. `kept` needs `window` places. Rows 14, 9. */
uint32_t isdbs_window_push(uint32_t window, uint32_t *fill, uint32_t *next, uint8_t clear, uint32_t sum, uint32_t *kept, size_t kept_len,
                           uint32_t *total, uint32_t *greatest);

/* Decodes a stream piece by piece: the decoder of the code of constraint length 7 with generators 171 and 133 octal. Its state is the caller's: 64 path values (0 at a known start
 * state and -1,000,000 elsewhere, or all 0), how many decision words are held (0) and the traceback (1 to 1,024). The held words are the first of
 * `decisions`. A call takes its steps one by one; as 4,096 + traceback words are held, 4,096 bits leave to `out`, one in a byte. *count is how many.
 * Accepted, a push writes `pm`, *held, the held words at the front of `decisions` and *count places of `out`; where bits left, the words past the held ones up to
 * 4,096 + traceback become 0. A flush sets *held and the words that were held to 0 and keeps `pm`. Where `pm` is not 64 long, row 4 speaks of its first 64.
 *
 * isdb_push          two soft values a step, above 0 for bit 0.   Rows 3, 4, 5, 7, 9.
 * isdb_push_metrics  four metrics a step, that of the outputs (X, Y) at 2X + Y.   Rows 3, 4, 5, 7, 9.
 * isdb_push_known    a known bit a step, the low bit of its byte.   Rows 3, 4, 5, 9.
 * isdb_flush         no steps: all held bits leave.   Rows 3, 4, 5, 9.
 * isdb_flush_at      the same, traced from the state `end` (mod 64) in place of the best one.   Rows 3, 4, 5, 9.
 *
 * One isdb_push_metrics of at most 4,096 quadruples of whole numbers within 16 of zero on a fresh state of traceback 128, then isdb_flush: the bits are the inputs
 * of the first path of greatest sum, the one of highest end state, then of the larger low bit of the predecessor at the last step, the step before
 * it, and so on.
 */
uint32_t isdb_push(float *pm, size_t pm_len, uint64_t *held, uint64_t traceback, const float *pairs, size_t pairs_len,
                   uint64_t *decisions, size_t decisions_len, uint8_t *out, size_t out_len, uint64_t *count);
uint32_t isdb_push_metrics(float *pm, size_t pm_len, uint64_t *held, uint64_t traceback, const float *metrics, size_t metrics_len,
                           uint64_t *decisions, size_t decisions_len, uint8_t *out, size_t out_len, uint64_t *count);
uint32_t isdb_push_known(float *pm, size_t pm_len, uint64_t *held, uint64_t traceback, const uint8_t *bits, size_t bits_len,
                         uint64_t *decisions, size_t decisions_len, uint8_t *out, size_t out_len, uint64_t *count);
uint32_t isdb_flush(float *pm, size_t pm_len, uint64_t *held, uint64_t traceback,
                    uint64_t *decisions, size_t decisions_len, uint8_t *out, size_t out_len, uint64_t *count);
uint32_t isdb_flush_at(float *pm, size_t pm_len, uint64_t *held, uint64_t traceback, uint8_t end,
                       uint64_t *decisions, size_t decisions_len, uint8_t *out, size_t out_len, uint64_t *count);

/* Encodes and decodes other short codes: constraint length 3 to 7 with two generators, each below 2^length with its top bit set: the encoder, and the decoder's calls as above. `length`, `g1` and
 * `g2` stand first; `pm` is 64 long at every length. The first 2^(length-1) path values are those of the states, the others do not count, also not in
 * row 4, and are as before (a NaN's bits are free). Row 12: any other length or generator, right before 4. Length 7 with 0171 and 0133 answers and leaves what the calls above do.
 *
 * isdb_code_encode  X then Y of the low bit of each byte, one in a byte, from *state, which becomes the state after the last.   Rows 12, 4 (*state is 2^(length-1) or
 *                   more), 9 (fewer than two places for each input).
 * The others: the rows of the call above, and 12. A known end is taken mod 2^(length-1). A fresh state is 0 at the start state, -1,000,000
 * at the other states and 0 past them, or all 0. What is said above of one call of metrics and a flush, with traceback 128,
 * holds at every length.
 */
uint32_t isdb_code_encode(uint8_t length, uint8_t g1, uint8_t g2, uint8_t *state, const uint8_t *bits, size_t bits_len, uint8_t *out, size_t out_len);
uint32_t isdb_code_push(uint8_t length, uint8_t g1, uint8_t g2, float *pm, size_t pm_len, uint64_t *held, uint64_t traceback, const float *pairs, size_t pairs_len,
                        uint64_t *decisions, size_t decisions_len, uint8_t *out, size_t out_len, uint64_t *count);
uint32_t isdb_code_push_metrics(uint8_t length, uint8_t g1, uint8_t g2, float *pm, size_t pm_len, uint64_t *held, uint64_t traceback,
                                const float *metrics, size_t metrics_len, uint64_t *decisions, size_t decisions_len, uint8_t *out, size_t out_len, uint64_t *count);
uint32_t isdb_code_push_known(uint8_t length, uint8_t g1, uint8_t g2, float *pm, size_t pm_len, uint64_t *held, uint64_t traceback,
                              const uint8_t *bits, size_t bits_len, uint64_t *decisions, size_t decisions_len, uint8_t *out, size_t out_len, uint64_t *count);
uint32_t isdb_code_flush(uint8_t length, uint8_t g1, uint8_t g2, float *pm, size_t pm_len, uint64_t *held, uint64_t traceback,
                         uint64_t *decisions, size_t decisions_len, uint8_t *out, size_t out_len, uint64_t *count);
uint32_t isdb_code_flush_at(uint8_t length, uint8_t g1, uint8_t g2, float *pm, size_t pm_len, uint64_t *held, uint64_t traceback, uint8_t end,
                            uint64_t *decisions, size_t decisions_len, uint8_t *out, size_t out_len, uint64_t *count);

/* Encodes and decodes the punctured code of ISDB-T. Rates 0 to 4: 1/2, 2/3, 3/4, 5/6, 7/8. A period is 1, 2, 3, 5, 7 bits and 2, 3, 4, 6, 8 sent ones.
 *
 * isdbt_encode_punctured  encodes bits, the low bit of each byte, from *state on and leaves the state there. Rows 4, 5, 9.
 * isdbt_depuncture        puts soft values back to their places among the mother code's, 0 at those not sent. Rows 5, 9.
 * isdbt_decode_punctured  decodes a block whole from state 0; traceback 0 acts as 1. The first 4,096 + traceback words of `decisions` are 0
 *                         afterwards. Rows 3, 5, 7, 9.
 * *count is how many places of `out` are written, from its front.
 */
uint32_t isdbt_encode_punctured(uint8_t rate, uint8_t *state, const uint8_t *bits, size_t bits_len, uint8_t *out, size_t out_len, uint64_t *count);
uint32_t isdbt_depuncture(uint8_t rate, const float *llrs, size_t llrs_len, float *out, size_t out_len, uint64_t *count);
uint32_t isdbt_decode_punctured(uint8_t rate, const float *llrs, size_t llrs_len, uint64_t traceback,
                                uint64_t *decisions, size_t decisions_len, uint8_t *out, size_t out_len, uint64_t *count);

/* Mends a stored stretch of coded bits, X then Y of each step, one in a byte, between the states `start` and `end` (mod 64), with at most four wrong bits. `out` begins with the coded
 * stretch between those states that differs from `bits` in at most four bits (there is only one), as long as `bits`; `places` with the positions in which it differs, rising, X of
 * step t at 2t and Y at 2t + 1, and *count is how many. `places` needs four places and `decisions` 4,224 words, which are 0 afterwards. Answer 15: there is no such stretch. Rows 5 (an odd
 * number of bits, more than 8,192, a byte above 1), 9, 15. Crate c_mend. */
uint32_t isdb_mend(const uint8_t *bits, size_t bits_len, uint8_t start, uint8_t end, uint64_t *decisions, size_t decisions_len,
                   uint8_t *out, size_t out_len, uint32_t *places, size_t places_len, uint64_t *count);

#ifdef __cplusplus
}
#endif

#endif
