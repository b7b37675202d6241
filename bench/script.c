// A script of about a mebibyte, cut into lines and words by a plain loop, timed. bench/script.sh compares it with
// crates/gcd_script, whose test makes the same text.
#include <stdint.h>
#include <stdio.h>
#include <stdlib.h>
#include <string.h>
#include <time.h>

enum { ROOM = 2 * 1024 * 1024, TRIES = 7, FILES = 64, GROUPS = 552, BLOCKS = 16384 };

static size_t fill(char *text) {
    char *end = text;
    for (int i = 0; i < FILES; i++)
        end += sprintf(end, "file file_%d data/%d\n", i, i);
    for (int i = 0; i < GROUPS; i++)
        end += sprintf(end, "group group_%d\n", i);
    end += sprintf(end, "queue queue serial\n");
    for (int k = 1; k <= BLOCKS; k++)
        end += sprintf(end, "block block_%d sum file_%d %d 64\n", k, k % FILES, 37 * k % 4033);
    end += sprintf(end, "main\n");
    for (int k = 1; k <= BLOCKS; k++)
        end += sprintf(end, "async queue block_%d\n", k);
    return (size_t)(end - text);
}

struct word {
    const char *at;
    size_t length;
};

// The number of lines, and of words, whose places are kept for each line.
__attribute__((noinline)) static uint64_t cut(const char *text, size_t length, uint64_t *lines) {
    struct word words[7];
    uint64_t all = 0;
    const char *at = text, *end = text + length;
    *lines = 0;
    while (at < end) {
        size_t n = 0;
        for (;;) {
            while (at < end && *at == ' ')
                at++;
            if (at == end || *at == '\n')
                break;
            const char *from = at;
            while (at < end && *at != ' ' && *at != '\n')
                at++;
            if (n < 7)
                words[n++] = (struct word){from, (size_t)(at - from)};
            __asm__ volatile("" : : "r"(words) : "memory");
        }
        at++;
        all += n;
        ++*lines;
    }
    return all;
}

static uint64_t now(void) {
    struct timespec t;
    clock_gettime(CLOCK_MONOTONIC, &t);
    return (uint64_t)t.tv_sec * 1000000u + (uint64_t)t.tv_nsec / 1000u;
}

int main(void) {
    char *text = malloc(ROOM);
    size_t length = fill(text);
    uint64_t best = UINT64_MAX, lines = 0, words = 0;
    for (int i = 0; i < TRIES; i++) {
        uint64_t began = now();
        words = cut(text, length, &lines);
        uint64_t time = now() - began;
        best = time < best ? time : best;
    }
    printf("C: %zu bytes, %llu lines, %llu words in %llu us\n", length, (unsigned long long)lines, (unsigned long long)words, (unsigned long long)best);
    return 0;
}
