// Threads that make the transactions of a workload, each by a client of its own.
#ifndef STORE_DRIVE_HPP
#define STORE_DRIVE_HPP
#include "graph.hpp"
#include "bank.hpp"

#include <thread>

namespace store {

// What takes no lock: for one thread, or to try the judgement of a run.
struct no_locks {
    void begin() {}
    void lock(const path &, mode) {}
    void lock_tree(const path &, mode) {}
    void commit(bool) {}
    void restart() {}
    void abort() {}
    void rest() {}
};

struct driven {
    double seconds = 0, processor_seconds = 0;  // by the clock, and of all threads
    std::uint64_t made = 0, deadlocks = 0, limits = 0;
    std::vector<access> log;             // of all clients, if it was asked for
    std::vector<std::uint64_t> times;    // of each transaction, from its begin to its commit, tries among them, in nanoseconds
    std::string fault;                   // the first that a transaction has thrown, or nothing
};

// Makes so many transactions in all. `connect` makes a client for a thread.
template <class Workload, class Connect>
driven drive(const Workload &workload, unsigned threads, std::uint64_t transactions, bool is_logged, Connect connect) {
    using clock = std::chrono::steady_clock;
    const auto used = [] {
        timespec at{};
        clock_gettime(CLOCK_PROCESS_CPUTIME_ID, &at);
        return static_cast<double>(at.tv_sec) + static_cast<double>(at.tv_nsec) / 1e9;
    };
    std::vector<driven> parts(threads);
    std::vector<std::thread> running;
    const auto start = clock::now();
    const double used_before = used();
    for (unsigned k = 0; k < threads; ++k)
        running.emplace_back([&, k] {
            driven &own = parts[k];
            random_numbers random(k + 1);
            const auto client = connect();
            if (is_logged) client->write_log(&own.log);
            for (std::uint64_t count = transactions / threads + (k < transactions % threads); count > 0; --count) {
                const auto from = clock::now();
                try {
                    workload.make(*client, random);
                } catch (const std::exception &why) {
                    if (own.fault.empty()) own.fault = why.what();
                }
                own.times.push_back(static_cast<std::uint64_t>(std::chrono::nanoseconds(clock::now() - from).count()));
            }
            client->rest();
            own.made = client->counted().made, own.deadlocks = client->counted().deadlocks, own.limits = client->counted().limits;
        });
    for (auto &thread : running) thread.join();
    driven all;
    all.seconds = std::chrono::duration<double>(clock::now() - start).count();
    all.processor_seconds = used() - used_before;
    for (driven &part : parts) {
        all.made += part.made, all.deadlocks += part.deadlocks, all.limits += part.limits;
        all.log.insert(all.log.end(), part.log.begin(), part.log.end());
        all.times.insert(all.times.end(), part.times.begin(), part.times.end());
        if (all.fault.empty()) all.fault = part.fault;
    }
    return all;
}

}  // namespace store
#endif
