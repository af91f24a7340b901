// Times examples/store over several lock layers: store WAY WORKLOAD WAREHOUSES THREADS TRANSACTIONS FOLDER [memory] [graph].
// WAY is
//     office    sessions of one office, a program for each path
//     offices   the same, an office for each warehouse
//     kept      the same as `office`; a transaction with at most 4 row locks leaves its intention locks to the next one of its thread
//     mutex     one book behind a mutex, which is taken for each program
//     rocksdb   RocksDB's own pessimistic transactions, with their detection of deadlocks, in place of locks and batch; in memory their
//               locks alone: each by GetForUpdate without a value, given back by Rollback
//     berkeley  the lock subsystem of Berkeley DB, if built with -DBERKELEY_DB
//     plain     a std::shared_mutex for each row, without time-outs, since `orders` locks in one order
//     none      no locks, by one thread: what a transaction takes besides
// WORKLOAD is `orders` or `bank` of examples/store, the latter with transfers in the order of paths, so that only audits close cycles. An
// audit by `rocksdb` reads a snapshot, since it locks keys alone; so in memory there is none, nor one by `plain`. Where the library has U,
// Berkeley DB has its write lock, and `rocksdb` and `plain` an exclusive one. FOLDER is one that isn't there yet. With `memory` the rows
// are in a hash table during the run, which takes no locks (store_rows.hpp), and in RocksDB before it and behind it. With `graph` each
// client writes a log, and the graph of dependencies is judged, too. Makes so many transactions in all, and prints how many a second, the
// time of one from its begin to its commit (median and 99th of 100), the processor time of all threads for one, in ns, and how many times
// one was made again. Fails if the tables don't agree, or if the graph has a cycle.
//     ./embed && c++ -std=c++17 -O2 -DBERKELEY_DB bench/store.cpp -Iout -Lout -lpelgaisti -lrocksdb -ldb -lpthread -o store
#include "../examples/store/drive.hpp"
#include "../examples/store/orders.hpp"
#include "store_locks.hpp"

#include <cstdio>
#include <functional>

namespace {

using bench::is_found;
using store::mode;
using store::path;

// RocksDB's own transactions, in place of store::locked.
class rocks {
    rocksdb::TransactionDB &rows_;
    rocksdb::TransactionOptions how_;
    std::unique_ptr<rocksdb::Transaction> made_;

public:
    explicit rocks(rocksdb::TransactionDB &rows) : rows_(rows) { how_.deadlock_detect = true; }

    void begin() { made_.reset(rows_.BeginTransaction(rocksdb::WriteOptions(), how_, made_.release())); }
    bool read(const path &row, mode in, std::string &stored) {
        return is_found(made_->GetForUpdate(rocksdb::ReadOptions(), store::key_of(row), &stored, in != mode::S));
    }
    bool look(const path &row, std::string &stored) { return is_found(made_->Get(rocksdb::ReadOptions(), store::key_of(row), &stored)); }
    void write(const path &row, const std::string &stored) { is_found(made_->Put(store::key_of(row), stored)); }
    template <class Each> void scan(const path &tree, Each each) {
        const std::string prefix = store::key_of(tree);
        rocksdb::ReadOptions how;
        if (made_->GetSnapshot() == nullptr) made_->SetSnapshot();
        how.snapshot = made_->GetSnapshot();
        std::unique_ptr<rocksdb::Iterator> at(made_->GetIterator(how));
        for (at->Seek(prefix); at->Valid() && at->key().starts_with(prefix); at->Next())
            each(at->key().ToStringView(), at->value().ToStringView());
        store::check(at->status());
    }
    void commit(bool) { is_found(made_->Commit()); }
    void restart() {
        abort();
        begin();
    }
    void abort() { store::check(made_->Rollback()); }
    void rest() {}
};

struct asked_for {
    std::string way, workload, folder;
    std::uint32_t warehouses;
    unsigned threads;
    std::uint64_t transactions;
    bool is_in_memory, has_graph;
};

// RocksDB in a new folder: for `rocksdb` one with transactions.
std::unique_ptr<rocksdb::DB> open(const asked_for &asked) {
    rocksdb::Options how;
    how.create_if_missing = true;
    how.error_if_exists = true;
    if (asked.way == "rocksdb") {
        rocksdb::TransactionDB *opened = nullptr;
        store::check(rocksdb::TransactionDB::Open(how, rocksdb::TransactionDBOptions(), asked.folder, &opened));
        return std::unique_ptr<rocksdb::DB>(opened);
    }
    rocksdb::DB *opened = nullptr;
    store::check(rocksdb::DB::Open(how, asked.folder, &opened));
    return std::unique_ptr<rocksdb::DB>(opened);
}

template <class Locks> struct type_of {
    using type = Locks;
};

// Calls `run` with the locks of a client, by their type, and with what each client's are made from.
template <class Run> store::driven with_locks(const asked_for &asked, Run run) {
    if (asked.way == "none") return run(type_of<store::no_locks>());
    if (asked.way == "mutex") {
        bench::guarded_book locks(asked.threads);
        return run(type_of<bench::guarded_book::client>(), locks);
    }
    if (asked.way == "plain") {
        bench::plain_locks locks;
        return run(type_of<bench::plain_locks::client>(), locks);
    }
#ifdef BERKELEY_DB
    if (asked.way == "berkeley") {
        bench::environment locks;
        return run(type_of<bench::environment::client>(), locks);
    }
#endif
    store::offices::options how;
    how.clients = asked.threads;
    if (asked.way == "offices") how.count = asked.warehouses;
    if (asked.way == "kept") how.keeps = 4;
    store::offices locks(how);
    return run(type_of<store::offices::client>(), locks);
}

template <class Workload> store::driven drive(const asked_for &asked, const Workload &workload, const std::function<void(rocksdb::DB &)> &judge) {
    const std::unique_ptr<rocksdb::DB> opened = open(asked);
    workload.load(*opened);
    // makes the transactions over this type, by clients that are made from these
    const auto run = [&](auto over, auto &...from) {
        const auto connect = [&] { return std::make_unique<store::client_over<typename decltype(over)::type>>(from...); };
        return store::drive(workload, asked.threads, asked.transactions, asked.has_graph, connect);
    };
    // of `rocksdb` alone
    const auto own = [&]() -> rocksdb::TransactionDB & { return static_cast<rocksdb::TransactionDB &>(*opened); };
    store::driven made;
    if (asked.is_in_memory) {
        bench::rows rows(asked.workload == "bank");
        rows.take_from(*opened);
        const auto over_rows = [&](auto locks, auto &...from) {
            return run(type_of<bench::in_memory<typename decltype(locks)::type>>(), rows, from...);
        };
        made = asked.way == "rocksdb" ? over_rows(type_of<bench::point_locks>(), own()) : with_locks(asked, over_rows);
        rows.write_to(*opened->GetRootDB());
    } else if (asked.way == "rocksdb") {
        made = run(type_of<rocks>(), own());
    } else {
        made = with_locks(asked, [&](auto locks, auto &...from) {
            return run(type_of<store::locked<typename decltype(locks)::type>>(), *opened, from...);
        });
    }
    judge(*opened);
    if (made.fault.empty() && asked.has_graph) made.fault = store::judge(made.log).fault;
    return made;
}

store::driven run(const asked_for &asked) {
    if (asked.workload == "bank") {
        store::bank::options how;
        how.branches = asked.warehouses;
        how.in_order = true;
        const store::bank bank(how);
        return drive(asked, bank, [&](rocksdb::DB &rows) {
            if (!bank.is_whole(rows)) throw std::runtime_error("money was made or lost");
        });
    }
    store::orders::options how;
    how.warehouses = asked.warehouses;
    const store::orders orders(how);
    return drive(asked, orders, [&](rocksdb::DB &rows) {
        const std::string fault = orders.fault(rows);
        if (!fault.empty()) throw std::runtime_error(fault);
    });
}

void tell(const asked_for &asked) {
    auto made = run(asked);
    if (!made.fault.empty()) throw std::runtime_error(made.fault);
    const auto count = static_cast<double>(made.times.size());
    std::sort(made.times.begin(), made.times.end());
    std::printf("%s %s%s warehouses=%u threads=%u second=%.0f median=%llu 99th=%llu processor=%.0f again=%llu\n", asked.way.c_str(),
                asked.workload.c_str(), asked.is_in_memory ? " memory" : "", asked.warehouses, asked.threads, count / made.seconds,
                static_cast<unsigned long long>(made.times[made.times.size() / 2]),
                static_cast<unsigned long long>(made.times[made.times.size() * 99 / 100]), made.processor_seconds / count * 1e9,
                static_cast<unsigned long long>(made.deadlocks + made.limits));
}

// Whether there are such runs.
bool is_right(const asked_for &asked) {
    const std::vector<std::string> ways = {"office", "offices", "kept", "mutex", "rocksdb", "plain", "none",
#ifdef BERKELEY_DB
                                           "berkeley",
#endif
    };
    if (std::find(ways.begin(), ways.end(), asked.way) == ways.end()) return false;
    if (asked.workload != "bank" && asked.workload != "orders") return false;
    if (asked.workload == "bank" && (asked.way == "plain" || (asked.way == "rocksdb" && asked.is_in_memory))) return false;
    if (asked.warehouses < 1 || asked.threads < 1 || asked.threads > 1024 || asked.transactions < 1) return false;
    return asked.way != "none" || asked.threads == 1;
}

}  // namespace

int main(int count, char **words) {
    if (count < 7) return 2;
    asked_for asked{words[1], words[2], words[6], static_cast<std::uint32_t>(std::atoi(words[3])),
                    static_cast<unsigned>(std::atoi(words[4])), std::strtoull(words[5], nullptr, 10), false, false};
    for (int k = 7; k < count; ++k) {
        const std::string word = words[k];
        if (word != "memory" && word != "graph") return 2;
        (word == "memory" ? asked.is_in_memory : asked.has_graph) = true;
    }
    if (!is_right(asked)) return 2;
    try {
        tell(asked);
    } catch (const std::exception &why) {
        std::fprintf(stderr, "store: %s\n", why.what());
        return 8;
    }
}
