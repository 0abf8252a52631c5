/* How much stack each call of include/isdb.h takes: each is made in a thread whose stack is painted, and the paint that is gone is counted. What a thread takes that does nothing is taken off.
 * Calls are accepted ones, of the tables below, the greatest of them. The last column is the answer. Ends with 1 where a call takes more than the limit, or is refused. */
#include <pthread.h>
#include <stdio.h>
#include <stdlib.h>
#include <string.h>
#include <sys/mman.h>
#include "isdb.h"

#define SIZE (4u << 20)
#define LIMIT 98304

static double re[38976], im[38976], full_re[39936], full_im[39936], part_re[768], part_im[768];
static uint64_t decisions[5120], count, held, place;
static uint8_t bits[77952 + 16], bytes[9744], load[9744], out[77952], end;
static uint32_t counts[48], runs[24], places[4], sum, total, greatest, fill, next;
static float pm[64], llrs[16384], scales[7] = {8, 8, 8, 8, 8, 8, 8};

/* what the best reading works in and writes */
static float metrics[4 * 68208];
static uint8_t sides[68208], uncoded[68208];
static uint64_t words[68208], lead_tables[64 * 48], leads[48];

/* a capture: a header of the first kind at point 100, zeros elsewhere */
#define AIR 40960
static double air_re[AIR], air_im[AIR], out_re[39936], out_im[39936];
static uint8_t kind, turn;
static int32_t re_sum, im_sum;

static void capture(void) {
    for (int i = 0; i < 20; i++) {
        air_re[100 + 12 + i] = 0xecd28u >> (19 - i) & 1 ? -1 : 1;
        air_re[100 + 172 + i] = 0x0b677u >> (19 - i) & 1 ? -1 : 1;
    }
}

/* All seven combinations, four at most in a table, and the longest runs of each. */
static const uint64_t tables[] = {
    0x000f000f000f3001, 0x000f000f000f3002, 0x000f000f000f3003, 0x000f000f000f3004, 0x000f000f000f3005, 0x000f000f000f3006, 0x000f000f000f3007, 0x0c0106030c041207, 0x0806060506021c07,
};
#define TABLES (sizeof tables / sizeof *tables)

static uint64_t table;
static size_t carried;

static uint32_t nothing(void) { return 0; }
static uint32_t soft(void) { return isdbs_soft(0.1) > 1; }
static uint32_t slot_combinations(void) { return isdbs_slot_combinations(table, out, 48); }
static uint32_t runs_of(void) { return isdbs_runs(table, runs, 24, &sum); }
static uint32_t bit_symbol(void) { return isdbs_bit_symbol(6, 1000000, &place); }
static uint32_t encode_frame(void) { return isdbs_encode_frame(load, carried, table, 4, 0, re, 38976, im, 38976, &end); }
static uint32_t decode_frame(void) {
    return isdbs_decode_frame(re, 38976, im, 38976, table, 4, 1, 1, scales, 7, decisions, 4224, bits, sizeof bits, bytes, sizeof bytes, counts, 48, &sum);
}
static uint32_t wanted_load(void) { return isdbs_wanted_load(re, 38976, im, 38976, table, 4, 1, bytes, sizeof bytes); }
static uint32_t judge(void) { return isdbs_judge(re, 38976, im, 38976, table, 4, 1, load, carried, counts, 48, &sum); }
static uint32_t quality(void) { static double sums[336]; return isdbs_quality(re, 38976, im, 38976, table, 4, 1, load, carried, sums, 336); }
static uint32_t best_reading(void) {
    return isdbs_best_reading(re, 38976, im, 38976, table, 4, 1, 1, scales, 7, metrics, 4 * 68208, sides, 68208, words, 68208, lead_tables, 64 * 48, bits, sizeof bits, uncoded, 68208,
                              bytes, sizeof bytes, leads, 48);
}
static uint32_t header(void) { return isdbs_header(air_re, AIR, air_im, AIR, 100, &kind, &turn, &re_sum, &im_sum); }
static uint32_t find_frame(void) { return isdbs_find_frame(air_re, AIR, air_im, AIR, 0, &place, &kind, &turn, &re_sum, &im_sum); }
static uint32_t align_frame(void) { return isdbs_align_frame(air_re, AIR, air_im, AIR, 100, out_re, 39936, out_im, 39936); }
static uint32_t lay_frame(void) {
    return isdbs_lay_frame(part_re, 192, part_im, 192, re, 38976, im, 38976, part_re, 768, part_im, 768, full_re, 39936, full_im, 39936);
}
static uint32_t take_frame(void) {
    static double head_re[192], head_im[192];
    return isdbs_take_frame(full_re, 39936, full_im, 39936, head_re, 192, head_im, 192, re, 38976, im, 38976, part_re, 768, part_im, 768);
}
static uint32_t window_push(void) { return isdbs_window_push(24, &fill, &next, 0, 1, runs, 24, &total, &greatest); }
static uint32_t push(void) { return isdb_push(pm, 64, &held, 1024, llrs, 16384, decisions, 5120, out, sizeof out, &count); }
static uint32_t push_metrics(void) { return isdb_push_metrics(pm, 64, &held, 1024, llrs, 16384, decisions, 5120, out, sizeof out, &count); }
static uint32_t push_known(void) { return isdb_push_known(pm, 64, &held, 1024, load, 9744, decisions, 5120, out, sizeof out, &count); }
static uint32_t flush(void) { return isdb_flush(pm, 64, &held, 1024, decisions, 5120, out, sizeof out, &count); }
static uint32_t flush_at(void) { return isdb_flush_at(pm, 64, &held, 1024, 0, decisions, 5120, out, sizeof out, &count); }
static uint32_t code_encode(void) { return isdb_code_encode(7, 0171, 0133, &end, load, 9744, out, sizeof out); }
static uint32_t code_push(void) { return isdb_code_push(7, 0171, 0133, pm, 64, &held, 1024, llrs, 16384, decisions, 5120, out, sizeof out, &count); }
static uint32_t code_push_metrics(void) { return isdb_code_push_metrics(7, 0171, 0133, pm, 64, &held, 1024, llrs, 16384, decisions, 5120, out, sizeof out, &count); }
static uint32_t code_push_known(void) { return isdb_code_push_known(7, 0171, 0133, pm, 64, &held, 1024, load, 9744, decisions, 5120, out, sizeof out, &count); }
static uint32_t code_flush(void) { return isdb_code_flush(7, 0171, 0133, pm, 64, &held, 1024, decisions, 5120, out, sizeof out, &count); }
static uint32_t code_flush_at(void) { return isdb_code_flush_at(7, 0171, 0133, pm, 64, &held, 1024, 0, decisions, 5120, out, sizeof out, &count); }
static uint32_t encode_punctured(void) { end = 0; return isdbt_encode_punctured(4, &end, load, 7 * 1024, out, sizeof out, &count); }
static uint32_t depuncture(void) { static float back[16384]; return isdbt_depuncture(4, llrs, 8 * 1024, back, 16384, &count); }
static uint32_t decode_punctured(void) { return isdbt_decode_punctured(4, llrs, 8 * 1024, 1024, decisions, 5120, out, sizeof out, &count); }
static uint32_t mend(void) { memset(bits, 0, 8192); return isdb_mend(bits, 8192, 0, 0, decisions, 5120, out, sizeof out, places, 4, &count); }

/* a call that the archive does not have is not made */
#define WEAK(f) extern __typeof__(f) f __attribute__((weak));
#define CALLS(X) \
    X(isdbs_soft, soft, 0) X(isdbs_slot_combinations, slot_combinations, 1) X(isdbs_runs, runs_of, 1) X(isdbs_bit_symbol, bit_symbol, 0) \
    X(isdbs_encode_frame, encode_frame, 1) X(isdbs_decode_frame, decode_frame, 1) X(isdbs_wanted_load, wanted_load, 1) X(isdbs_judge, judge, 1) \
    X(isdbs_quality, quality, 1) X(isdbs_best_reading, best_reading, 1) X(isdbs_header, header, 0) X(isdbs_find_frame, find_frame, 0) X(isdbs_align_frame, align_frame, 0) \
    X(isdbs_lay_frame, lay_frame, 0) X(isdbs_take_frame, take_frame, 0) X(isdbs_window_push, window_push, 0) \
    X(isdb_push, push, 0) X(isdb_push_metrics, push_metrics, 0) X(isdb_push_known, push_known, 0) X(isdb_flush, flush, 0) X(isdb_flush_at, flush_at, 0) \
    X(isdb_code_encode, code_encode, 0) X(isdb_code_push, code_push, 0) X(isdb_code_push_metrics, code_push_metrics, 0) X(isdb_code_push_known, code_push_known, 0) \
    X(isdb_code_flush, code_flush, 0) X(isdb_code_flush_at, code_flush_at, 0) \
    X(isdbt_encode_punctured, encode_punctured, 0) X(isdbt_depuncture, depuncture, 0) X(isdbt_decode_punctured, decode_punctured, 0) X(isdb_mend, mend, 0)
#define WEAK_CALL(f, g, t) WEAK(f)
CALLS(WEAK_CALL)

typedef struct { uint32_t (*call)(void); uint32_t answer; } Made;

static void *make(void *p) { ((Made *)p)->answer = ((Made *)p)->call(); return p; }

/* The paint that a call takes away. */
static size_t taken(uint32_t (*call)(void), uint32_t *answer) {
    static uint8_t *stack;
    if (!stack) stack = mmap(0, SIZE, PROT_READ | PROT_WRITE, MAP_PRIVATE | MAP_ANONYMOUS, -1, 0);
    memset(stack, 0xa5, SIZE);
    Made made = {call, 0};
    pthread_attr_t attr;
    pthread_t thread;
    if (stack == MAP_FAILED || pthread_attr_init(&attr) || pthread_attr_setstack(&attr, stack, SIZE) || pthread_create(&thread, &attr, make, &made) || pthread_join(thread, 0)) exit(2);
    *answer = made.answer;
    size_t i = 0;
    while (i < SIZE && stack[i] == 0xa5) i++;
    return SIZE - i;
}

int main(void) {
    uint32_t answer, bad = 0;
    size_t none = taken(nothing, &answer);
    for (int i = 0; i < 9744; i++) load[i] = (uint8_t)(i * 37);
    capture();
#define MEASURE(f, g, t) \
    if (f) { \
        size_t most = 0, took; \
        uint32_t worst = 0; \
        for (size_t k = 0; k < (t ? TABLES : 1); k++) { \
            table = tables[k]; \
            held = 0; \
            if (isdbs_slot_combinations) { \
                isdbs_slot_combinations(table, out, 48); \
                carried = 0; \
                for (int i = 0; i < 48; i++) carried += 203 * (out[i] != 0); \
            } \
            if (isdbs_encode_frame) encode_frame(); \
            took = taken(g, &answer); \
            if (took > most) most = took; \
            if (answer) worst = answer; \
        } \
        most = most > none ? most - none : 0; \
        if (worst || most > LIMIT) bad = 1; \
        printf("%-26s %8zu  %u%s\n", #f, most, worst, most > LIMIT ? "  ABOVE THE LIMIT" : ""); \
    }
    CALLS(MEASURE)
    return bad;
}
