/* Prints names of eight letters that begin at the same place of a table which finds names by their hashes: COUNT names whose
   hashes agree in the low BITS bits. The hash is the one of std's tables: it has no key. Built and used by hostile.py. */
#include <stdint.h>
#include <stdio.h>
#include <stdlib.h>
#include <string.h>

static const uint64_t START = 0x243f6a8885a308d3, FACTOR = 0x9e3779b97f4a7c15;

/* The hash of a name of eight bytes, as a table keeps it. */
static uint32_t hash_of(const char *name) {
    uint64_t bytes;
    memcpy(&bytes, name, 8);
    unsigned __int128 product = (unsigned __int128)(START ^ bytes) * (FACTOR ^ 16);
    uint64_t folded = (uint64_t)product ^ (uint64_t)(product >> 64);
    return (uint32_t)(folded ^ folded >> 32);
}

int main(int count, char **words) {
    if (count != 3) return 2;
    long wanted = atol(words[1]);
    uint32_t mask = (uint32_t)((1ull << atol(words[2])) - 1);
    for (uint64_t number = 0; wanted > 0; number++) {
        char name[9] = {0};
        uint64_t left = number;
        for (int place = 7; place >= 0; place--, left /= 26) name[place] = (char)('a' + left % 26);
        if (hash_of(name) & mask) continue;
        puts(name);
        wanted--;
    }
    return 0;
}
