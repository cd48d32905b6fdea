/* Prints names of eight letters whose hashes, as the toolchain's FoldHasher makes them from its fixed seed, end in
   the same 14 bits: in a table of at most as many groups of slots, all probes begin at one group. */
#include <stdint.h>
#include <stdio.h>
#include <stdlib.h>

enum { LETTERS = 8, BITS = 14 };

static const uint64_t MULTIPLIER = 0x9e3779b97f4a7c15u;
static const uint64_t SEED = 0x243f6a8885a308d3u;

static char name[LETTERS + 1];
static long wanted;

/* The hash of eight bytes, which are read as one number, the first of them lowest. */
static uint64_t hash_of(uint64_t number) {
    unsigned __int128 product = (unsigned __int128)(SEED ^ number) * (MULTIPLIER ^ 2 * LETTERS);
    return (uint64_t)product ^ (uint64_t)(product >> 64);
}

/* Tries all names that go on from the first letters, which are this number. */
static void names_from(uint64_t number, int letters) {
    for (char letter = 'a'; letter <= 'z' && wanted > 0; letter++) {
        uint64_t longer = number | (uint64_t)letter << 8 * letters;
        name[letters] = letter;
        if (letters + 1 < LETTERS) {
            names_from(longer, letters + 1);
            continue;
        }
        uint64_t hash = hash_of(longer);
        if (((hash ^ hash >> 32) & ((1 << BITS) - 1)) == 0) {
            puts(name);
            wanted--;
        }
    }
}

int main(int count, char **words) {
    wanted = count > 1 ? atol(words[1]) : 32768;
    names_from(0, 0);
    return 0;
}
