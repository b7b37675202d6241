// oneTBB: a queueing function node of concurrency 1 for each strand, in an arena of so many threads.
#include "shape.hpp"
#include <tbb/flow_graph.h>
#include <tbb/global_control.h>
#include <tbb/task_arena.h>

using Node = tbb::flow::function_node<uint32_t, tbb::flow::continue_msg>;

static uint32_t worker() { return static_cast<uint32_t>(tbb::this_task_arena::current_thread_index()); }

static void run(uint32_t workers, Journal &journal) {
    tbb::global_control most(tbb::global_control::max_allowed_parallelism, workers);
    tbb::task_arena arena(static_cast<int>(workers));
    arena.execute([&] {
        tbb::flow::graph graph;
        std::vector<std::unique_ptr<Node>> nodes;
        for (uint32_t q = 0; q < STRANDS; q++)
            nodes.push_back(std::make_unique<Node>(graph, tbb::flow::serial, [&](uint32_t k) {
                journal.run(k, worker());
                return tbb::flow::continue_msg();
            }));
        for (uint32_t k = 1; k <= BLOCKS; k++) {
            journal.submit(k, worker());
            nodes[strand_of(k)]->try_put(k);
        }
        graph.wait_for_all();
    });
}

int main(int count, char **words) { return report("oneTBB", workers_of(count, words), run); }
