// Makes the transactions of a bank, or the orders of TPC-C, by several threads, and judges the run: whether the tables agree, and whether the
// run was serializable, by the graph of its dependencies.
//
//     store bank|orders [--warehouses N] [--threads N] [--transactions N] [--offices N] [--keep N] [--limit MILLISECONDS]
//                       [--locks right|none|shared]
//
// By default 20,000 transactions of 4 threads on 2 warehouses, or branches of the bank. With several offices databases are dealt out to them;
// with --keep a transaction with at most N row locks leaves its intention locks to the next one of its thread. --locks none takes no lock, and
// --locks shared takes S in place of U and X: then the judgement has to be a bad one. Status 0: all is well; 1: it isn't; 2: wrong words.
#include "drive.hpp"
#include "orders.hpp"

#include <cstdio>
#include <filesystem>
#include <map>
#include <stdlib.h>

namespace {

// What takes S where U or X is needed.
struct shared_locks : store::offices::client {
    explicit shared_locks(store::offices &of) : store::offices::client(of) {}
    void lock(const store::path &on, store::mode) { store::offices::client::lock(on, store::mode::S); }
};

struct asked_for {
    bool is_bank = true;
    std::string locks = "right";
    std::map<std::string, unsigned long> numbers = {{"--warehouses", 2}, {"--threads", 4}, {"--transactions", 20000},
                                                    {"--offices", 1},    {"--keep", 0},    {"--limit", 1000}};
    std::uint32_t number(const std::string &name) const { return static_cast<std::uint32_t>(numbers.at(name)); }
};

// A folder that is removed in the end.
struct own_folder {
    std::string name = (std::filesystem::temp_directory_path() / "store-XXXXXX").string();
    own_folder() {
        if (mkdtemp(name.data()) == nullptr) throw std::runtime_error("no folder can be made for the rows");
    }
    ~own_folder() {
        std::error_code ignored;
        std::filesystem::remove_all(name, ignored);
    }
};

template <class Workload> store::driven run(const asked_for &asked, const Workload &workload, store::database &rows) {
    const auto drive = [&](auto connect) {
        return store::drive(workload, asked.number("--threads"), asked.numbers.at("--transactions"), true, connect);
    };
    workload.load(rows.rows());
    using unlocked = store::client_over<store::locked<store::no_locks>>;
    using shared = store::client_over<store::locked<shared_locks>>;
    if (asked.locks == "none") return drive([&] { return std::make_unique<unlocked>(rows.rows()); });
    if (asked.locks == "shared") return drive([&] { return std::make_unique<shared>(rows.rows(), rows.locks()); });
    return drive([&] { return std::make_unique<store::client>(rows); });
}

// Makes the run, and tells of it. Whether all is well.
bool judge(const asked_for &asked) {
    const own_folder folder;
    store::offices::options locks;
    locks.clients = asked.number("--threads");
    locks.count = asked.number("--offices");
    locks.keeps = asked.number("--keep");
    locks.limit = std::chrono::milliseconds(asked.number("--limit"));
    store::database rows(folder.name, locks);
    store::driven made;
    std::string fault;
    if (asked.is_bank) {
        store::bank::options how;
        how.branches = asked.number("--warehouses");
        const store::bank bank(how);
        made = run(asked, bank, rows);
        if (!bank.is_whole(rows.rows())) fault = "money was made or lost";
    } else {
        store::orders::options how;
        how.warehouses = asked.number("--warehouses");
        const store::orders orders(how);
        made = run(asked, orders, rows);
        fault = orders.fault(rows.rows());
    }
    const store::verdict found = store::judge(made.log);
    std::printf("%s: %llu transactions in %.2f s; made again: %llu deadlocks, %llu time-outs\n", asked.is_bank ? "bank" : "orders",
                static_cast<unsigned long long>(made.made), made.seconds, static_cast<unsigned long long>(made.deadlocks),
                static_cast<unsigned long long>(made.limits));
    std::printf("tables: %s\n", !made.fault.empty() ? made.fault.c_str() : !fault.empty() ? fault.c_str() : "they agree");
    std::printf("graph: %zu transactions, %zu dependencies; %s\n", found.transactions, found.dependencies,
                found.fault.empty() ? "no cycle" : found.fault.c_str());
    return made.fault.empty() && fault.empty() && found.fault.empty();
}

bool read_words(int count, char **words, asked_for &asked) {
    if (count < 2 || count % 2 != 0) return false;
    const std::string workload = words[1];
    if (workload != "bank" && workload != "orders") return false;
    asked.is_bank = workload == "bank";
    for (int k = 2; k < count; k += 2) {
        const std::string name = words[k], value = words[k + 1];
        if (name == "--locks" && (value == "right" || value == "none" || value == "shared")) {
            asked.locks = value;
            continue;
        }
        if (asked.numbers.count(name) == 0 || value.empty() || value.size() > 9) return false;
        if (value.find_first_not_of("0123456789") != std::string::npos) return false;
        asked.numbers[name] = std::stoul(value);
        if (asked.numbers[name] == 0 && name != "--keep") return false;
    }
    return asked.number("--threads") <= 1024 && asked.number("--warehouses") <= 1000;
}

}  // namespace

int main(int count, char **words) {
    asked_for asked;
    if (!read_words(count, words, asked)) {
        std::fprintf(stderr, "usage: store bank|orders [--warehouses N] [--threads N] [--transactions N] [--offices N] [--keep N] "
                             "[--limit MILLISECONDS] [--locks right|none|shared]\n");
        return 2;
    }
    try {
        return judge(asked) ? 0 : 1;
    } catch (const std::exception &why) {
        std::fprintf(stderr, "store: %s\n", why.what());
        return 1;
    }
}
