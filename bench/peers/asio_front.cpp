// Boost.Asio: callers from outside post to a strand over a pool of so many threads. Words and line are those of bench/front's program:
// `rate` or `delay`, the number of threads, and of senders.
//
// A sender posts its share of 4,096 jobs from a thread of its own, once a first job has run. The journal, an array with an atomic
// index, gets an entry for each job: it is posted, starts and ends. Each job gives a value, which is kept. After each run both are
// judged: jobs run one at a time, those of a sender in its order, each once. (What our run keeps is a journal of the same events with
// its workers, each judged by the rules of queues before it is taken.) A run ends when the pool has ended.
#include <algorithm>
#include <atomic>
#include <boost/asio/post.hpp>
#include <boost/asio/strand.hpp>
#include <boost/asio/thread_pool.hpp>
#include <chrono>
#include <cstdint>
#include <cstdio>
#include <cstdlib>
#include <cstring>
#include <memory>
#include <thread>
#include <vector>

namespace asio = boost::asio;
using Clock = std::chrono::steady_clock;
using Times = std::vector<uint64_t>;

constexpr uint32_t JOBS = 4096, TRIES = 9, TIMED_TRIES = 3, MOST = 64;
constexpr uint32_t POSTED = 0, STARTS = 1, ENDS = 2;
constexpr auto PAUSE = std::chrono::microseconds(20);

static std::atomic<uint32_t> threads;
static thread_local uint32_t mine = UINT32_MAX;

// The number of this thread in its pool, from 0.
static uint32_t worker() {
    if (mine == UINT32_MAX)
        mine = threads++;
    return mine;
}

static uint64_t nanos_since(Clock::time_point began) {
    return static_cast<uint64_t>(std::chrono::nanoseconds(Clock::now() - began).count());
}

// Job k of all is the job k mod `share` of sender k / `share`.
class Journal {
    std::unique_ptr<uint64_t[]> words{new uint64_t[3 * JOBS]()};
    std::atomic<uint32_t> length{0};

    void append(uint32_t worker, uint32_t what, uint32_t k) {
        words[length.fetch_add(1, std::memory_order_relaxed)] = uint64_t{worker} << 32 | uint64_t{k} * 4 | what;
    }

  public:
    std::unique_ptr<uint64_t[]> values{new uint64_t[JOBS]()};

    void post(uint32_t k, uint32_t sender) { append(sender, POSTED, k); }

    // Runs job k, whose value is how long ago it was sent, or 1 where nobody asks.
    void run(uint32_t k, const Clock::time_point *sent) {
        append(worker(), STARTS, k);
        values[k] = sent ? nanos_since(*sent) : 1;
        append(worker(), ENDS, k);
    }

    // Whether the journal is one of a strand to which so many jobs were posted.
    bool is_right(uint32_t jobs, uint32_t share) const {
        std::vector<uint8_t> step(jobs);
        std::vector<uint32_t> next(jobs / share);
        uint32_t open = UINT32_MAX;
        for (uint32_t i = 0; i < 3 * jobs; i++) {
            uint32_t what = words[i] % 4, k = static_cast<uint32_t>(words[i]) / 4;
            if (k >= jobs || step[k]++ != what)
                return false;
            if (what == STARTS && (open != UINT32_MAX || next[k / share]++ != k % share))
                return false;
            if (what == ENDS && open != k)
                return false;
            if (what != POSTED)
                open = what == STARTS ? k : UINT32_MAX;
        }
        return length == 3 * jobs;
    }
};

// A run: nanoseconds from the first send to the end of the pool, and its journal.
static uint64_t run(uint32_t workers, uint32_t senders, bool is_timed, Journal &journal) {
    uint32_t share = JOBS / senders;
    std::atomic<bool> is_under_way{false};
    std::vector<Clock::time_point> began(senders);
    std::vector<std::thread> callers;
    threads = 0;
    asio::thread_pool pool(workers);
    auto strand = asio::make_strand(pool);
    for (uint32_t s = 0; s < senders; s++)
        callers.emplace_back([&, s] {
            while (!is_under_way)
                std::this_thread::yield();
            began[s] = Clock::now();
            for (uint32_t k = s * share; k < (s + 1) * share; k++) {
                if (!is_timed) {
                    journal.post(k, s);
                    asio::post(strand, [&journal, k] { journal.run(k, nullptr); });
                    continue;
                }
                std::this_thread::sleep_for(PAUSE);
                auto sent = Clock::now();
                journal.post(k, s);
                asio::post(strand, [&journal, k, sent] { journal.run(k, &sent); });
            }
        });
    asio::post(strand, [&] { is_under_way = true; });
    for (std::thread &caller : callers)
        caller.join();
    pool.join();
    return nanos_since(*std::min_element(began.begin(), began.end()));
}

// The one of these that so many of a hundred do not pass.
static uint64_t percentile(Times &times, size_t percent) {
    std::sort(times.begin(), times.end());
    return times[times.size() * percent / 100];
}

int main(int count, char **words) {
    uint32_t workers = count == 4 ? static_cast<uint32_t>(std::atoi(words[2])) : 0;
    uint32_t senders = count == 4 ? static_cast<uint32_t>(std::atoi(words[3])) : 0;
    if (workers == 0 || workers > MOST || senders == 0 || senders > MOST) {
        std::fprintf(stderr, "give rate or delay, and the numbers of threads and of senders, 1 to 64\n");
        return 2;
    }
    bool is_timed = std::strcmp(words[1], "delay") == 0;
    uint32_t share = JOBS / senders, jobs = share * senders;
    Times times;
    for (uint32_t i = 0; i < (is_timed ? TIMED_TRIES : TRIES); i++) {
        Journal journal;
        uint64_t took = run(workers, senders, is_timed, journal);
        if (!journal.is_right(jobs, share)) {
            std::fprintf(stderr, "Boost.Asio: the journal is wrong\n");
            return 1;
        }
        if (is_timed)
            times.insert(times.end(), &journal.values[0], &journal.values[jobs]);
        else
            times.push_back(took / jobs);
    }
    unsigned long long low = percentile(times, is_timed ? 50 : 0), high = percentile(times, is_timed ? 99 : 50);
    std::printf("%s %u %u %llu %llu\n", words[1], workers, senders, low, high);
    return 0;
}
