/* Prints so many names that meet in a hash map of the kit with keys of text: their hashes have one tag, and begin in one of 32 groups
 * of the 2,048 that a map of all blocks has. The kit's hash has a fixed seed, so that anybody can find such names.
 *
 *   cc -O2 -o collide collide.c && ./collide 16383
 */
#include <stdint.h>
#include <stdio.h>
#include <stdlib.h>
#include <string.h>

#define SEED 0x243f6a8885a308d3u
#define MULTIPLIER 0x9e3779b97f4a7c15u
#define OTHER_GROUPS 0x7e0u
#define TAG 0x55u

static uint64_t folded(uint64_t a, uint64_t b) {
    unsigned __int128 product = (unsigned __int128)a * b;
    return (uint64_t)product ^ (uint64_t)(product >> 64);
}

/* The hash of a text of eight bytes, after which the kit writes the byte 255. */
static uint32_t hash_of(const char *name) {
    uint64_t word;
    memcpy(&word, name, 8);
    uint64_t state = folded(folded(SEED ^ word, MULTIPLIER ^ 16) ^ 0xffffff, MULTIPLIER ^ 2);
    return (uint32_t)(state ^ state >> 32);
}

int main(int count, char **words) {
    static const char digits[] = "0123456789abcdefghijklmnopqrstuvwxyz";
    unsigned long wanted = count > 1 ? strtoul(words[1], NULL, 10) : 0;
    char name[9] = "b0000000";
    for (uint64_t number = 0; wanted > 0; number++) {
        uint64_t rest = number;
        for (int place = 7; place > 0; place--, rest /= 36) name[place] = digits[rest % 36];
        uint32_t hash = hash_of(name);
        if (hash >> 24 != TAG || (hash & OTHER_GROUPS) != 0) continue;
        puts(name);
        wanted--;
    }
}
