// Boost.Asio: a strand for each strand of the shape, over a pool of so many threads.
#include "shape.hpp"
#include <boost/asio/post.hpp>
#include <boost/asio/strand.hpp>
#include <boost/asio/thread_pool.hpp>

namespace asio = boost::asio;
using Strand = asio::strand<asio::thread_pool::executor_type>;

static std::atomic<uint32_t> threads;
static thread_local uint32_t mine = UINT32_MAX;

// The number of this thread in its pool, from 0.
static uint32_t worker() {
    if (mine == UINT32_MAX)
        mine = threads++;
    return mine;
}

static void run(uint32_t workers, Journal &journal) {
    threads = 0;
    asio::thread_pool pool(workers);
    std::vector<Strand> strands(STRANDS, Strand(pool.get_executor()));
    for (Strand &strand : strands)
        strand = asio::make_strand(pool);
    asio::post(pool, [&] {
        for (uint32_t k = 1; k <= BLOCKS; k++) {
            journal.submit(k, worker());
            asio::post(strands[strand_of(k)], [&journal, k] { journal.run(k, worker()); });
        }
    });
    pool.join();
}

int main(int count, char **words) { return report("Boost.Asio", workers_of(count, words), run); }
