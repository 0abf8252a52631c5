// The floating-point environment that the C calls need, and what they do in others. C11 and C++17.
// isdb_environment_ok says what the processor's setting says, in every setting; and two calls that answer otherwise outside the condition, as include/isdb.h warns.
#include <fenv.h>
#include <stdio.h>
#include <string.h>
#include <xmmintrin.h>
#include "isdb.h"

#define TABLE (6 | 8 << 8 | (uint64_t)0x000f000f000f << 16) // 8 slots of QPSK 7/8
#define ROUNDING 0x6000u    // two bits, 0: to nearest
#define UPWARD 0x4000u
#define FLUSH_TO_ZERO 0x8000u
#define ZERO_DENORMALS 0x0040u

static double re[38976], im[38976];
static uint64_t decisions[4224];
static uint8_t bits[7 * 1624 + 16], bytes[7 * 203];
static uint32_t counts[7], sum;
static int wrong = 0;

static void expect(const char *what, int so) {
    printf("%s: %s\n", what, so ? "as said" : "WRONG");
    wrong += !so;
}

// In the setting at hand: whether isdb_environment_ok says what the setting is.
static void told(const char *what, int ok) {
    int good = (_mm_getcsr() & (ROUNDING | FLUSH_TO_ZERO | ZERO_DENORMALS)) == 0;
    char line[128];
    (void)snprintf(line, sizeof line, "%s: isdb_environment_ok is %d", what, ok);
    expect(line, (ok != 0) == good);
}

static void setting(const char *what, unsigned int more) {
    unsigned int before = _mm_getcsr();
    _mm_setcsr(before | more);
    int ok = isdb_environment_ok();
    told(what, ok);
    _mm_setcsr(before);
}

static void rounding(const char *what, int mode) {
    int before = fegetround();
    (void)fesetround(mode);
    int ok = isdb_environment_ok();
    told(what, ok);
    (void)fesetround(before);
}

// A clean frame of 8 slots of QPSK 7/8; the scale of BPSK, which no run uses, is a subnormal.
static uint32_t read_frame(void) {
    float scales[7] = {0, 8, 8, 8, 8, 8, 8};
    uint32_t tiny = 0x000ae398; // 1e-39
    memcpy(&scales[0], &tiny, sizeof tiny);
    return isdbs_decode_frame(re, 38976, im, 38976, TABLE, 4, 1, 1, scales, 7, decisions, 4224, bits, sizeof bits, bytes, sizeof bytes, counts, 7, &sum);
}

// The second decision word of two pairs, from no known start.
static uint64_t second_word(void) {
    float pm[64] = {0};
    float pairs[4] = {1, 1.0e-8f, 0, 0};
    uint64_t held = 0, count = 0;
    (void)isdb_push(pm, 64, &held, 128, pairs, 4, decisions, 4224, bits, sizeof bits, &count);
    return decisions[1];
}

int main(void) {
    uint8_t end;
    unsigned int found = _mm_getcsr();
    told("as the program finds it", isdb_environment_ok());
    _mm_setcsr(found & ~(ROUNDING | FLUSH_TO_ZERO | ZERO_DENORMALS));
    (void)fesetround(FE_TONEAREST);

    told("default", isdb_environment_ok());
    rounding("FE_UPWARD", FE_UPWARD);
    rounding("FE_DOWNWARD", FE_DOWNWARD);
    rounding("FE_TOWARDZERO", FE_TOWARDZERO);
    setting("upward in the vector unit alone", UPWARD);
    setting("flush to zero", FLUSH_TO_ZERO);
    setting("subnormals are zero", ZERO_DENORMALS);
    setting("both", FLUSH_TO_ZERO | ZERO_DENORMALS);

    (void)isdbs_encode_frame(bytes, 0, TABLE, 4, 0, re, 38976, im, 38976, &end);
    uint32_t inside = read_frame();
    uint64_t word = second_word();
    _mm_setcsr(_mm_getcsr() | FLUSH_TO_ZERO | ZERO_DENORMALS);
    uint32_t flushed = read_frame();
    _mm_setcsr(found & ~(ROUNDING | FLUSH_TO_ZERO | ZERO_DENORMALS));
    (void)fesetround(FE_UPWARD);
    uint64_t upward = second_word();
    (void)fesetround(FE_TONEAREST);
    expect("isdbs_decode_frame, a scale of 1e-39: accepted in the default environment", inside == 0);
    expect("isdbs_decode_frame, a scale of 1e-39: 8 where subnormals are zero", flushed == 8);
    expect("isdb_push: another decision word under FE_UPWARD", upward != word);
    printf("environment: %d wrong\n", wrong);
    return wrong != 0;
}
