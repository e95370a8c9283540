/* Prints COUNT different words of three characters, one a line, that a hash with known keys puts into one place of a table of 2^BITS
   places: collide COUNT BITS HASH
   HASH is `fold`, the standard hasher of the kit's maps, whose seed is fixed (core/src/hash/fold.rt), or `words`, the hash of words
   (crates/sbl_last_runs/src/word_hash.rt) as it would be if the system's keys were 0. */
#include <stdint.h>
#include <stdio.h>
#include <stdlib.h>
#include <string.h>

#define SEED 0x243f6a8885a308d3ull
#define MULTIPLIER 0x9e3779b97f4a7c15ull

static uint64_t folded(uint64_t a, uint64_t b)
{
    unsigned __int128 product = (unsigned __int128)a * b;
    return (uint64_t)product ^ (uint64_t)(product >> 64);
}

static uint64_t rotated(uint64_t a, int by)
{
    return a << by | a >> (64 - by);
}

static void mix(uint64_t v[4])
{
    v[0] += v[1], v[2] += v[3];
    v[1] = rotated(v[1], 13) ^ v[0], v[3] = rotated(v[3], 16) ^ v[2], v[0] = rotated(v[0], 32);
    v[2] += v[1], v[0] += v[3];
    v[1] = rotated(v[1], 17) ^ v[2], v[3] = rotated(v[3], 21) ^ v[0], v[2] = rotated(v[2], 32);
}

/* SipHash-1-3 of a number of eight bytes, with keys of 0. */
static uint64_t sip(uint64_t number)
{
    uint64_t v[4] = {0x736f6d6570736575ull, 0x646f72616e646f6dull, 0x6c7967656e657261ull, 0x7465646279746573ull};
    uint64_t words[2] = {number, 8ull << 56};
    for (int i = 0; i < 2; i++) {
        v[3] ^= words[i];
        mix(v);
        v[0] ^= words[i];
    }
    v[2] ^= 0xff;
    for (int i = 0; i < 3; i++)
        mix(v);
    return v[0] ^ v[1] ^ v[2] ^ v[3];
}

/* A hash: its state after the length 3, with what it multiplies for a character and at the end, and if it takes each character twice. */
struct hash {
    uint64_t begin, factor, last;
    int twice;
};

static struct hash hash_of(const char *name)
{
    if (!strcmp(name, "fold"))
        /* It takes eight bytes as it takes four, with another multiplier. */
        return (struct hash){folded(SEED ^ 3, MULTIPLIER ^ 16), MULTIPLIER ^ 8, 0, 1};
    if (!strcmp(name, "words"))
        return (struct hash){folded(sip(0) ^ 3, sip(1) | 1), sip(1) | 1, sip(2) | 1, 0};
    exit(2);
}

/* The state after one more character, four bytes. */
static uint64_t after(struct hash hash, uint64_t state, uint32_t c)
{
    return folded(state ^ (hash.twice ? c | (uint64_t)c << 32 : c), hash.factor);
}

/* A character above U+07FF, in UTF-8. */
static void print_character(uint32_t c)
{
    putchar(0xE0 | c >> 12);
    putchar(0x80 | (c >> 6 & 63));
    putchar(0x80 | (c & 63));
}

int main(int count, char **words)
{
    if (count != 4)
        return 2;
    long left = atol(words[1]);
    uint32_t mask = ((uint32_t)1 << atoi(words[2])) - 1;
    struct hash hash = hash_of(words[3]);
    for (uint32_t a = 0x3400; a < 0x9F00 && left > 0; a++)
        for (uint32_t b = 0x3400; b < 0x9F00 && left > 0; b++) {
            uint64_t state = after(hash, after(hash, hash.begin, a), b);
            for (uint32_t c = 0x3400; c < 0x9F00 && left > 0; c++) {
                uint64_t end = after(hash, state, c);
                if (hash.last)
                    end = folded(end, hash.last);
                if ((((uint32_t)(end ^ end >> 32)) & mask) != (0x1234 & mask))
                    continue;
                print_character(a);
                print_character(b);
                print_character(c);
                putchar('\n');
                left--;
            }
        }
    return 0;
}
