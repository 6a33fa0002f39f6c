/* Holds the core's answers to a check that is written here from the layout, byte by byte and with no shared code. */
#include "pungetsai.h"

#include <stdio.h>
#include <stdlib.h>
#include <string.h>

static int failures = 0;

/* The layout by masks on single bytes:
   byte 0  code (3), member (5)
   byte 1  instrument (4), side, term, the top 2 bits of lots
   byte 2  lots
   byte 3  the low 6 bits of lots, the top 2 bits of rate
   bytes 4, 5  rate
   byte 6  the low 2 bits of rate, 6 bits spare
   byte 7  spare */
static uint8_t expected(const uint8_t *m, size_t length)
{
    if (length != 8) {
        return 1;
    }
    int spare = (m[6] & 0x3F) | m[7];
    int rate = (m[3] & 0x03) | m[4] | m[5] | (m[6] & 0xC0);
    int lots = (m[1] & 0x03) | m[2] | (m[3] & 0xFC);
    int kind = m[1] & 0xFC; /* instrument, side, term */
    switch (m[0] >> 5) {
    case 1:
        return spare ? 2 : 0;
    case 2:
        return (spare || rate || kind) ? 2 : 0;
    case 3:
        return (spare || rate || kind || lots) ? 2 : 0;
    default:
        return 2;
    }
}

static void compare(const uint8_t *message, size_t length)
{
    /* a copy of exactly this length. The sanitizers watch this file alone: the library is not compiled with them, and that
       it reads nothing past the length is what is proved. valgrind sees its reads too. */
    uint8_t *copy = malloc(length ? length : 1);
    if (copy == NULL) {
        abort();
    }
    memcpy(copy, message, length);
    uint8_t got = pungetsai_check_message(copy, length);
    uint8_t want = expected(message, length);
    if (got != want) {
        failures++;
        fprintf(stderr, "length %zu: answered %u, expected %u\n", length, (unsigned)got, (unsigned)want);
    }
    if (memcmp(copy, message, length) != 0) {
        failures++;
        fprintf(stderr, "length %zu: the message was written to\n", length);
    }
    free(copy);
}

/* xorshift: the same sequence on every machine */
static uint64_t state = 0x9E3779B97F4A7C15u;

static uint64_t random_word(void)
{
    state ^= state << 13;
    state ^= state >> 7;
    state ^= state << 17;
    return state;
}

static void bytes_of(uint64_t word, uint8_t *message)
{
    for (int i = 0; i < 8; i++) {
        message[i] = (uint8_t)(word >> (56 - 8 * i));
    }
}

int main(void)
{
    uint8_t message[16] = {0};
    unsigned long legal = 0, tried = 0;

    for (size_t length = 0; length <= 16; length++) {
        message[0] = 0x60;
        compare(message, length);
        tried++;
    }
    for (int round = 0; round < 20000; round++) {
        uint64_t word = random_word();
        switch (round % 4) {
        case 0: /* any bits */
            break;
        case 1: /* a legal place */
            word = (word & ~UINT64_C(0xE000000000003FFF)) | UINT64_C(1) << 61;
            break;
        case 2: /* a legal cancel */
            word = (word & UINT64_C(0x1F03FFFC00000000)) | UINT64_C(2) << 61;
            break;
        default: /* a legal cancel all with one bit turned */
            word = ((word & UINT64_C(0x1F00000000000000)) | UINT64_C(3) << 61) ^ UINT64_C(1) << (random_word() % 64);
            break;
        }
        bytes_of(word, message);
        compare(message, 8);
        legal += expected(message, 8) == 0;
        tried++;
    }
    printf("C host: %lu messages, %lu of them legal, %d differences\n", tried, legal, failures);
    return failures == 0 ? 0 : 1;
}
