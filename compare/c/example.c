/* The example of include/isdb.h: a frame of one QPSK 7/8 unit is made and read again. */
#include <stdio.h>
#include "isdb.h"

static double re[38976], im[38976];
static uint64_t decisions[4224];
static uint8_t bits[7 * 1624 + 16], bytes[7 * 203];
static uint32_t counts[7], sum;

int main(void) {
    uint64_t table = 6 | 8 << 8 | (uint64_t)0x000f000f000f << 16; /* 8 slots of QPSK 7/8, of which 7 are valid; no other entry */
    uint8_t load[7 * 203], end;
    float scales[7] = {8, 8, 8, 8, 8, 8, 8}; /* of words 1 to 7 */
    for (int i = 0; i < 7 * 203; i++) load[i] = (uint8_t)(i * 37);
    uint32_t made = isdbs_encode_frame(load, sizeof load, table, 4, 0, re, 38976, im, 38976, &end);
    uint32_t read = isdbs_decode_frame(re, 38976, im, 38976, table, 4, 1, 1, scales, 7, decisions, 4224, bits, sizeof bits, bytes, sizeof bytes, counts, 7, &sum);
    int same = 0;
    for (int i = 0; i < 7 * 203; i++) same += bytes[i] == load[i];
    printf("answers %u and %u, %d of %d bytes the same, %u steps strained\n", made, read, same, 7 * 203, sum);
    return 0;
}
