// What each peer runs: the large script (`gcd big 16384`). A first block, on a worker too, submits 16,384 blocks in turn to queues of
// which each belongs to one of three strands, a strand being a queue and those that target it: 0 has s0, s2 and c1, 1 has s1 and s3,
// and 2 has c0. Each block adds up 64 bytes of a file of 4,096 and keeps the value. The journal, an array with an atomic index, gets
// an entry for each event: a block is submitted, starts and ends. After each run the journal and the values are judged: a strand runs
// its blocks in the order of their submission, one at a time.
#pragma once
#include <array>
#include <atomic>
#include <chrono>
#include <cstdint>
#include <cstdio>
#include <cstdlib>
#include <memory>
#include <sys/resource.h>
#include <vector>

constexpr uint32_t BLOCKS = 16384, STRANDS = 3, TRIES = 9, MOST_WORKERS = 64;
constexpr uint32_t SUBMITTED = 0, STARTS = 1, ENDS = 2;
constexpr uint32_t FILE_BYTES = 4096, SUMMED = 64;

// The strand of block k, from 1: of the queue at place k mod 6 of s0, s1, s2, s3, c0, c1.
inline uint32_t strand_of(uint32_t k) {
    constexpr uint32_t of[6] = {0, 1, 0, 1, 2, 0};
    return of[k % 6];
}

class Journal {
    std::unique_ptr<uint64_t[]> words{new uint64_t[3 * BLOCKS]()};
    std::unique_ptr<uint64_t[]> values{new uint64_t[BLOCKS + 1]()};
    std::atomic<uint32_t> length{0};
    const uint8_t *file;

    void append(uint32_t worker, uint32_t what, uint32_t k) {
        words[length.fetch_add(1, std::memory_order_relaxed)] = uint64_t{worker} << 32 | uint64_t{k} * 4 | what;
    }

    uint64_t sum_of(uint32_t k) const {
        uint64_t sum = 0;
        for (uint32_t i = 0, from = 37 * k % 4033; i < SUMMED; i++)
            sum += file[from + i];
        return sum;
    }

  public:
    explicit Journal(const uint8_t *file) : file(file) {}

    // Block k is submitted by a worker.
    void submit(uint32_t k, uint32_t worker) { append(worker, SUBMITTED, k); }

    // Runs block k on a worker.
    void run(uint32_t k, uint32_t worker) {
        append(worker, STARTS, k);
        values[k] = sum_of(k);
        append(worker, ENDS, k);
    }

    // Whether the journal is one of the strands, and the values those of the blocks.
    bool is_right() const {
        std::vector<uint32_t> open(STRANDS), submitted(BLOCKS + 1), last(STRANDS), ended(BLOCKS + 1);
        for (uint32_t i = 0; i < 3 * BLOCKS; i++) {
            uint32_t what = words[i] % 4, k = static_cast<uint32_t>(words[i]) / 4, q = strand_of(k);
            if (k == 0 || k > BLOCKS)
                return false;
            if (what == SUBMITTED) {
                if (submitted[k]++)
                    return false;
            } else if (what == STARTS) {
                if (!submitted[k] || open[q] || k <= last[q])
                    return false;
                open[q] = last[q] = k;
            } else {
                if (open[q] != k || ended[k]++)
                    return false;
                open[q] = 0;
            }
        }
        for (uint32_t k = 1; k <= BLOCKS; k++)
            if (!ended[k] || values[k] != sum_of(k))
                return false;
        return length == 3 * BLOCKS;
    }
};

// The time of the first try and the least of all, in nanoseconds a block, and the most memory of the process, in bytes. A try makes
// the journal and the pool, runs all blocks, and ends the pool.
template <class Run> int report(const char *name, uint32_t workers, Run run) {
    using Clock = std::chrono::steady_clock;
    std::array<uint8_t, FILE_BYTES> file;
    for (uint32_t i = 0; i < FILE_BYTES; i++)
        file[i] = static_cast<uint8_t>(7 * i + 3);
    uint64_t first = 0, best = UINT64_MAX;
    for (uint32_t i = 0; i < TRIES; i++) {
        auto began = Clock::now();
        auto journal = std::make_unique<Journal>(file.data());
        run(workers, *journal);
        auto took = static_cast<uint64_t>(std::chrono::nanoseconds(Clock::now() - began).count());
        if (!journal->is_right()) {
            std::fprintf(stderr, "%s: the journal is wrong\n", name);
            return 1;
        }
        first = i == 0 ? took : first;
        best = took < best ? took : best;
    }
    rusage used;
    getrusage(RUSAGE_SELF, &used);
    std::printf("%s %u %llu %llu %ld\n", name, workers, static_cast<unsigned long long>(first / BLOCKS),
                static_cast<unsigned long long>(best / BLOCKS), used.ru_maxrss * 1024);
    return 0;
}

// How many workers the first word asks for.
inline uint32_t workers_of(int count, char **words) {
    uint32_t workers = count == 2 ? static_cast<uint32_t>(std::atoi(words[1])) : 0;
    if (workers == 0 || workers > MOST_WORKERS) {
        std::fprintf(stderr, "give the number of workers, 1 to 64\n");
        std::exit(2);
    }
    return workers;
}
