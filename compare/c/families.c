/* One example for each family of calls of include/isdb.h, in its order; each prints what came of it: families.txt. */
#include <stdio.h>
#include <string.h>
#include "isdb.h"

#define LOAD (45 * ISDBS_SLOT_BYTES)

static const uint64_t table = 7 | 44 << 8 | (uint64_t)(1 | 4 << 8) << 16 | (uint64_t)0x000f000f << 32; /* 44 slots of TC8PSK, 4 of BPSK of which one is valid */
static const float scales[ISDBS_SCALES] = {8, 8, 8, 8, 8, 8, 8};
static double re[ISDBS_MAIN_SYMBOLS], im[ISDBS_MAIN_SYMBOLS], full_re[ISDBS_FRAME_SYMBOLS], full_im[ISDBS_FRAME_SYMBOLS];
static uint8_t load[LOAD], bytes[ISDBS_BYTES], bits[ISDBS_BITS];
static uint64_t decisions[ISDBS_WORDS];
static uint32_t counts[ISDBS_SLOTS], sum;

/* Ends the program where a call refuses. */
static int refused(const char *call, uint32_t answer) {
    if (answer != ISDB_ANSWER_ACCEPTED) printf("%s: %u, %s\n", call, (unsigned)answer, isdb_answer_text(answer));
    return answer != ISDB_ANSWER_ACCEPTED;
}

static int tables(void) {
    uint32_t runs[ISDBS_RUNS * ISDBS_RUN_NUMBERS], count;
    uint64_t symbol;
    if (refused("isdbs_runs", isdbs_runs(table, runs, ISDBS_RUNS * ISDBS_RUN_NUMBERS, &count))) return 1;
    if (refused("isdbs_bit_symbol", isdbs_bit_symbol(7, 100, &symbol))) return 1;
    printf("table: %u runs, the second from symbol %u; bit 100 of TC8PSK at symbol %u\n", (unsigned)count, (unsigned)runs[10], (unsigned)symbol);
    return 0;
}

static int frames(void) {
    static double numbers[7 * ISDBS_SLOTS];
    uint8_t end;
    if (refused("isdbs_encode_frame", isdbs_encode_frame(load, LOAD, table, 4, 0, re, ISDBS_MAIN_SYMBOLS, im, ISDBS_MAIN_SYMBOLS, &end))) return 1;
    if (refused("isdbs_decode_frame", isdbs_decode_frame(re, ISDBS_MAIN_SYMBOLS, im, ISDBS_MAIN_SYMBOLS, table, 4, 1, 1, scales, ISDBS_SCALES, decisions, ISDBS_WORDS, bits, ISDBS_BITS,
                                                         bytes, ISDBS_BYTES, counts, ISDBS_SLOTS, &sum))) return 1;
    printf("read: %s, %u strained\n", memcmp(bytes, load, LOAD) == 0 ? "the same" : "other bytes", (unsigned)sum);
    if (refused("isdbs_wanted_load", isdbs_wanted_load(re, ISDBS_MAIN_SYMBOLS, im, ISDBS_MAIN_SYMBOLS, table, 4, 1, bytes, ISDBS_BYTES))) return 1;
    printf("bytes behind it: %s\n", memcmp(bytes, load, LOAD) == 0 ? "the same" : "others");
    if (refused("isdbs_judge", isdbs_judge(re, ISDBS_MAIN_SYMBOLS, im, ISDBS_MAIN_SYMBOLS, table, 4, 1, bytes, LOAD, counts, ISDBS_SLOTS, &sum))) return 1;
    printf("verdict: %s\n", sum == 0 ? "certain" : "points outside");
    if (refused("isdbs_quality", isdbs_quality(re, ISDBS_MAIN_SYMBOLS, im, ISDBS_MAIN_SYMBOLS, table, 4, 1, bytes, LOAD, numbers, 7 * ISDBS_SLOTS))) return 1;
    printf("quality: %.0f points of the first slot, signal %.1f, error %.1f\n", numbers[0], numbers[1], numbers[2]);
    return 0;
}

static int best(void) {
    static float metrics[4 * ISDBS_STEPS];
    static uint8_t sides[ISDBS_STEPS], uncoded[ISDBS_STEPS];
    static uint64_t words[ISDBS_STEPS], work[64 * ISDBS_SLOTS], leads[ISDBS_SLOTS];
    if (refused("isdbs_best_reading", isdbs_best_reading(re, ISDBS_MAIN_SYMBOLS, im, ISDBS_MAIN_SYMBOLS, table, 4, 1, 1, scales, ISDBS_SCALES, metrics, 4 * ISDBS_STEPS, sides, ISDBS_STEPS,
                                                         words, ISDBS_STEPS, work, 64 * ISDBS_SLOTS, bits, ISDBS_STEPS, uncoded, ISDBS_STEPS, bytes, ISDBS_BYTES, leads, ISDBS_SLOTS))) return 1;
    printf("best reading: %s, the first slot leads by %.1f\n", memcmp(bytes, load, LOAD) == 0 ? "the same" : "other bytes", (double)leads[0] / 1048576);
    return 0;
}

static int captures(void) {
    static double head_re[ISDBS_HEADER_SYMBOLS], head_im[ISDBS_HEADER_SYMBOLS], burst[ISDBS_BURST_SYMBOLS], out_re[ISDBS_FRAME_SYMBOLS], out_im[ISDBS_FRAME_SYMBOLS];
    uint64_t place;
    uint8_t kind, turn;
    int32_t re_sum, im_sum;
    for (int i = 0; i < 20; i++) {
        head_im[12 + i] = 0xECD28 >> (19 - i) & 1 ? -1 : 1; /* the header turned by a quarter: its points are imaginary */
        head_im[172 + i] = 0x0B677 >> (19 - i) & 1 ? -1 : 1;
    }
    if (refused("isdbs_lay_frame", isdbs_lay_frame(head_re, ISDBS_HEADER_SYMBOLS, head_im, ISDBS_HEADER_SYMBOLS, re, ISDBS_MAIN_SYMBOLS, im, ISDBS_MAIN_SYMBOLS, burst, ISDBS_BURST_SYMBOLS,
                                                   burst, ISDBS_BURST_SYMBOLS, full_re, ISDBS_FRAME_SYMBOLS, full_im, ISDBS_FRAME_SYMBOLS))) return 1;
    if (refused("isdbs_find_frame", isdbs_find_frame(full_re, ISDBS_FRAME_SYMBOLS, full_im, ISDBS_FRAME_SYMBOLS, 0, &place, &kind, &turn, &re_sum, &im_sum))) return 1;
    if (refused("isdbs_align_frame", isdbs_align_frame(full_re, ISDBS_FRAME_SYMBOLS, full_im, ISDBS_FRAME_SYMBOLS, place, out_re, ISDBS_FRAME_SYMBOLS, out_im, ISDBS_FRAME_SYMBOLS))) return 1;
    printf("capture: a frame at %u, kind %u, turn %u, sums %d and %d; aligned, its header begins (%g, %g)\n", (unsigned)place, (unsigned)kind, (unsigned)turn, (int)re_sum, (int)im_sum, out_re[12], out_im[12]);
    return 0;
}

static int window(void) {
    uint32_t fill = 0, next = 0, total, greatest, kept[3];
    for (uint32_t strained = 10; strained <= 40; strained += 10)
        if (refused("isdbs_window_push", isdbs_window_push(3, &fill, &next, 0, strained, kept, 3, &total, &greatest))) return 1;
    printf("window: the last %u sums give %u, at most %u\n", (unsigned)fill, (unsigned)total, (unsigned)greatest);
    return 0;
}

static int streams(void) {
    static uint8_t in[1000], coded[2000], out[1000 + ISDB_RELEASED];
    static float soft[2000], pm[ISDB_PATH_VALUES];
    uint8_t state = 0;
    uint64_t held = 0, pushed, flushed;
    for (int i = 0; i < 1000; i++) in[i] = (uint8_t)(i * i / 7 & 1);
    for (int i = 1; i < ISDB_PATH_VALUES; i++) pm[i] = -1e6f;
    if (refused("isdb_code_encode", isdb_code_encode(7, 0171, 0133, &state, in, 1000, coded, 2000))) return 1;
    for (int i = 0; i < 2000; i++) soft[i] = coded[i] ? -1.0f : 1.0f;
    if (refused("isdb_push", isdb_push(pm, ISDB_PATH_VALUES, &held, 128, soft, 2000, decisions, ISDBS_WORDS, out, sizeof out, &pushed))) return 1;
    if (refused("isdb_flush_at", isdb_flush_at(pm, ISDB_PATH_VALUES, &held, 128, state, decisions, ISDBS_WORDS, out + pushed, sizeof out - pushed, &flushed))) return 1;
    printf("stream: %u bits, %s\n", (unsigned)(pushed + flushed), memcmp(in, out, 1000) == 0 ? "the same" : "others");

    uint32_t places[ISDB_MEND_PLACES];
    static uint8_t mended[2000];
    coded[7] ^= 1, coded[1200] ^= 1;
    if (refused("isdb_mend", isdb_mend(coded, 2000, 0, state, decisions, ISDBS_WORDS, mended, 2000, places, ISDB_MEND_PLACES, &flushed))) return 1;
    printf("mended: %u bits, at %u and %u\n", (unsigned)flushed, (unsigned)places[0], (unsigned)places[1]);
    return 0;
}

static int punctured(void) {
    static uint8_t in[700], sent[800], out[700];
    static float soft[800];
    uint8_t state = 0;
    uint64_t count;
    for (int i = 0; i < 690; i++) in[i] = (uint8_t)(i * i / 5 & 1);
    if (refused("isdbt_encode_punctured", isdbt_encode_punctured(4, &state, in, 700, sent, 800, &count))) return 1;
    for (int i = 0; i < 800; i++) soft[i] = sent[i] ? -1.0f : 1.0f;
    if (refused("isdbt_decode_punctured", isdbt_decode_punctured(4, soft, 800, 128, decisions, ISDBS_WORDS, out, 700, &count))) return 1;
    printf("ISDB-T 7/8: %u bits, %s\n", (unsigned)count, memcmp(in, out, 690) == 0 ? "the same" : "others");
    return 0;
}

int main(void) {
    for (int i = 0; i < LOAD; i++) load[i] = (uint8_t)(i * 37);
    if (!isdb_environment_ok()) return 1;
    return tables() || frames() || best() || captures() || window() || streams() || punctured();
}
