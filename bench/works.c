// The works of a script as plain loops over the bytes of one text, timed. bench/works.sh compares them with crates/gcd_jobs.
#include <stdint.h>
#include <stdio.h>
#include <stdlib.h>
#include <time.h>

enum { LENGTH = 16 * 1024 * 1024, TRIES = 7 };

// The text: 16 MiB of letters, spaces, tabs and line feeds, drawn from a table of 32 by the high bits of a generator that
// crates/gcd_jobs has too.
static void fill(unsigned char *bytes) {
    static const char table[] = "etaoin shrdlu\ncmfwyp vbgkqjxz\t. ";
    uint32_t state = 1;
    for (size_t i = 0; i < LENGTH; i++) {
        state = state * 1664525u + 1013904223u;
        bytes[i] = (unsigned char)table[state >> 27];
    }
}

__attribute__((noinline)) static uint64_t lines(const unsigned char *bytes, size_t length) {
    uint64_t n = 0;
    for (size_t i = 0; i < length; i++)
        if (bytes[i] == 10)
            n++;
    return n;
}

__attribute__((noinline)) static uint64_t words(const unsigned char *bytes, size_t length) {
    uint64_t n = 0;
    int inside = 0;
    for (size_t i = 0; i < length; i++) {
        int space = (bytes[i] >= 9 && bytes[i] <= 13) || bytes[i] == 32;
        n += !space && !inside;
        inside = !space;
    }
    return n;
}

__attribute__((noinline)) static uint64_t sum(const unsigned char *bytes, size_t length) {
    uint64_t n = 0;
    for (size_t i = 0; i < length; i++)
        n += bytes[i];
    return n;
}

__attribute__((noinline)) static uint64_t count(const unsigned char *bytes, size_t length, unsigned char value) {
    uint64_t n = 0;
    for (size_t i = 0; i < length; i++)
        if (bytes[i] == value)
            n++;
    return n;
}

static uint64_t run(int work, const unsigned char *bytes) {
    switch (work) {
    case 0:
        return lines(bytes, LENGTH);
    case 1:
        return words(bytes, LENGTH);
    case 2:
        return sum(bytes, LENGTH);
    default:
        return count(bytes, LENGTH, 'e');
    }
}

static uint64_t microseconds(void) {
    struct timespec t;
    clock_gettime(CLOCK_MONOTONIC, &t);
    return (uint64_t)t.tv_sec * 1000000 + (uint64_t)t.tv_nsec / 1000;
}

int main(void) {
    static const char *const names[] = {"lines", "words", "sum", "count"};
    unsigned char *bytes = malloc(LENGTH);
    if (bytes == NULL)
        return 1;
    fill(bytes);
    for (int work = 0; work < 4; work++) {
        uint64_t best = UINT64_MAX, value = 0;
        for (int try = 0; try < TRIES; try++) {
            // the text may have changed, as far as the compiler knows
            __asm__ volatile("" : : "r"(bytes) : "memory");
            uint64_t began = microseconds();
            value = run(work, bytes);
            uint64_t took = microseconds() - began;
            if (took < best)
                best = took;
        }
        printf("%s %llu in %llu us\n", names[work], (unsigned long long)value, (unsigned long long)best);
    }
    free(bytes);
    return 0;
}
