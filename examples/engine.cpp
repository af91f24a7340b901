// A small engine in C++17 over pelgaisti.hpp: four threads move money between the accounts of two tables, under intention locks on
// the tables and exclusive locks on the accounts. A thread whose request waits sleeps until it is granted. Whoever becomes a deadlock's
// victim, or has waited for a minute, aborts and tries again. Before the threads start, an account that is held is asked for without
// waiting, and with a short limit.
//
//     ./embed && c++ -std=c++17 -O2 examples/engine.cpp -Iout -Lout -lpelgaisti -lpthread -o engine && ./engine

#include "pelgaisti.hpp"

#include <algorithm>
#include <chrono>
#include <cstdio>
#include <cstdlib>
#include <numeric>
#include <thread>

namespace {

using namespace std::chrono_literals;
constexpr unsigned threads = 4, moves = 500, accounts = 8;
constexpr long balance = 100;

// plain memory: the locks alone keep two threads apart
long tables[2][accounts];

struct account {
    std::uint32_t table, number;
};

// A thread's session.
struct worker {
    pelgaisti::session &session;

    // Begins or ends a transaction, which is refused nowhere here.
    void make(pelgaisti::op op) {
        if (session.perform({op}).reply.kind == pelgaisti::kind::refused) std::abort();
    }

    // Locks an account and its table. Whether both were granted within the limit.
    bool lock(account it, std::chrono::milliseconds limit) {
        const auto locked = session.lock({it.table, it.number}, pelgaisti::mode::X, limit);
        if (locked.outcome == pelgaisti::outcome::denied) std::abort();
        return bool(locked);
    }
};

// While one session holds an account, another asks for it without waiting, and then with a short limit. Its transaction goes on
// without the account. Whether it was refused both times.
bool do_without(pelgaisti::session &one, pelgaisti::session &two) {
    worker holder{one}, other{two};
    for (auto *it : {&holder, &other}) it->make(pelgaisti::op::begin);
    const bool held = holder.lock({0, 0}, 0ms), refused = !other.lock({0, 0}, 0ms), withdrawn = !other.lock({0, 0}, 20ms);
    for (auto *it : {&other, &holder}) it->make(pelgaisti::op::commit);
    return held && refused && withdrawn;
}

// One transfer. Whether it was committed.
bool transfer(worker &worker, account from, account to) {
    worker.make(pelgaisti::op::begin);
    if (!worker.lock(from, 60s) || !worker.lock(to, 60s)) {
        worker.make(pelgaisti::op::abort);
        return false;
    }
    tables[from.table][from.number] -= 1;
    tables[to.table][to.number] += 1;
    worker.make(pelgaisti::op::commit);
    return true;
}

void work(pelgaisti::session &session, unsigned number, unsigned &victims) {
    worker worker{session};
    for (unsigned move = 0; move < moves; ++move) {
        const unsigned step = move + number * 3;
        while (!transfer(worker, {step % 2, step % accounts}, {(step + 1) % 2, (step * 5 + 1) % accounts})) ++victims;
    }
}

}  // namespace

int main() {
    for (auto &table : tables) std::fill(table, table + accounts, balance);
    pelgaisti::office office{threads};
    const bool did_without = do_without(office[0], office[1]);
    std::vector<std::thread> running;
    unsigned victims[threads] = {};
    for (unsigned k = 0; k < threads; ++k) running.emplace_back([&, k] { work(office[k], k, victims[k]); });
    for (auto &thread : running) thread.join();
    auto book = office.close();
    long sum = 0;
    unsigned again = 0;
    for (auto &table : tables) sum = std::accumulate(table, table + accounts, sum);
    again = std::accumulate(victims, victims + threads, 0u);
    std::printf("%u transfers, %u of them tried again after a deadlock; %llu calls in the history\n", threads * moves, again,
                static_cast<unsigned long long>(book->length()));
    return did_without && sum == 2 * static_cast<long>(accounts) * balance ? 0 : 1;
}
