/* Texts of seven letters that the ported indexmap puts into one place of its tables: of the hash of their bytes, one by one behind their
   number, the bits that say where a table of so many groups begins to look, and those that it keeps of each entry, are the same.
   `bench/hostile_files.py` runs it: same_hash COUNT GROUP_BITS. It takes about COUNT * 2^(8 + GROUP_BITS) nanoseconds. */
#include <stdint.h>
#include <stdio.h>
#include <stdlib.h>

#define LENGTH 7
#define SEED 0x243f6a8885a308d3u
#define MULTIPLIER 0x9e3779b97f4a7c15u

static const char letters[] = "abcdefghijklmnopqrstuvwxyzABCDEFGHIJKLMNOPQRSTUVWXYZ0123456789";

static uint64_t fold(uint64_t a, uint64_t b) {
    unsigned __int128 product = (unsigned __int128)a * b;
    return (uint64_t)product ^ (uint64_t)(product >> 64);
}

/* a number of eight bytes, and one of one byte, which is read three times */
static uint64_t with_length(uint64_t state, uint64_t length) { return fold(state ^ length, MULTIPLIER ^ 16); }
static uint64_t with_byte(uint64_t state, char byte) { return fold(state ^ (uint64_t)(unsigned char)byte * 0x010101u, MULTIPLIER ^ 2); }

static uint32_t hash_of(uint64_t state) { return (uint32_t)(state ^ state >> 32); }

int main(int argc, char **argv) {
    if (argc != 3)
        return 2;
    long wanted = atol(argv[1]);
    uint32_t mask = 0xff000000u | ((1u << atoi(argv[2])) - 1), target = 0x5a000000u;
    uint64_t states[LENGTH];
    int places[LENGTH] = {0};
    states[0] = with_length(SEED, LENGTH);
    int known = 0;
    while (wanted > 0) {
        for (; known < LENGTH - 1; known++)
            states[known + 1] = with_byte(states[known], letters[places[known]]);
        for (int last = 0; letters[last] && wanted > 0; last++) {
            if ((hash_of(with_byte(states[LENGTH - 1], letters[last])) & mask) != target)
                continue;
            for (int place = 0; place < LENGTH - 1; place++)
                putchar(letters[places[place]]);
            printf("%c\n", letters[last]);
            wanted--;
        }
        /* the next front of six letters */
        int at = LENGTH - 2;
        while (at >= 0 && !letters[++places[at]])
            places[at--] = 0;
        if (at < 0)
            return 1;
        known = at;
    }
    return 0;
}
