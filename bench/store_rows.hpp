// Rows in memory, in place of RocksDB's: a hash table by their paths, which threads share without locks of its own.
#ifndef BENCH_STORE_ROWS_HPP
#define BENCH_STORE_ROWS_HPP
#include "../examples/store/store.hpp"

#include <map>
#include <shared_mutex>

namespace bench {

using store::mode;
using store::path;

// A hash table by paths, in which values are found while others are entered. None is taken out, and none moves. Whoever reads or writes a
// value has locked it.
template <class Value> class by_path {
    struct node {
        const path name;
        node *next;
        Value value{};
    };
    enum : std::size_t { heads = 1 << 20 };
    std::vector<std::atomic<node *>> heads_ = std::vector<std::atomic<node *>>(heads);

    std::atomic<node *> &head(const path &name) { return heads_[store::path_hash()(name) % heads]; }
    // The node of this name, of those before `end`; `end` if there is none.
    static node *among(node *from, node *end, const path &name) {
        while (from != end && !store::same_path()(from->name, name)) from = from->next;
        return from;
    }

public:
    by_path() = default;
    by_path(const by_path &) = delete;
    by_path &operator=(const by_path &) = delete;
    ~by_path() {
        for (auto &first : heads_)
            for (node *it = first.load(), *next; it != nullptr; it = next) next = it->next, delete it;
    }

    Value *find(const path &name) {
        node *const found = among(head(name).load(std::memory_order_acquire), nullptr, name);
        return found == nullptr ? nullptr : &found->value;
    }
    // The value of this name, and whether this call has entered it.
    std::pair<Value *, bool> enter(const path &name) {
        std::atomic<node *> &at = head(name);
        std::unique_ptr<node> made;
        for (node *first = at.load(std::memory_order_acquire), *seen = nullptr;;) {
            if (node *const found = among(first, seen, name); found != seen) return {&found->value, false};
            if (made == nullptr) made.reset(new node{name, first});
            made->next = seen = first;
            if (at.compare_exchange_strong(first, made.get(), std::memory_order_release, std::memory_order_acquire))
                return {&made.release()->value, true};
        }
    }
    // Calls `each` with all names and values, when no other thread uses the table.
    template <class Each> void each(Each each) {
        for (auto &first : heads_)
            for (node *it = first.load(); it != nullptr; it = it->next) each(it->name, it->value);
    }
};

// What is stored of each row, header and value. A row that isn't there has nothing stored, or a header that says so.
class rows {
    by_path<std::string> by_name_;
    const bool is_scanned_;
    std::shared_mutex guard_;  // of the rows in their order, which are kept for scans
    std::map<std::string, std::string *> in_order_;

public:
    explicit rows(bool is_scanned) : is_scanned_(is_scanned) {}

    const std::string *get(const path &row) {
        const std::string *const stored = by_name_.find(row);
        return stored == nullptr || stored->empty() ? nullptr : stored;
    }
    // What is stored of a row, to be written.
    std::string &put(const path &row) {
        const auto [stored, is_new] = by_name_.enter(row);
        if (is_new && is_scanned_) {
            const std::lock_guard<std::shared_mutex> lock(guard_);
            in_order_.emplace(store::key_of(row), stored);
        }
        return *stored;
    }
    template <class Each> void scan(const path &tree, Each each) {
        const std::string prefix = store::key_of(tree);
        const std::shared_lock<std::shared_mutex> lock(guard_);
        for (auto at = in_order_.lower_bound(prefix); at != in_order_.end() && at->first.compare(0, prefix.size(), prefix) == 0; ++at)
            if (!at->second->empty()) each(at->first, *at->second);
    }

    // Takes all rows out of RocksDB, and writes them to it.
    void take_from(rocksdb::DB &from) {
        const std::unique_ptr<rocksdb::Iterator> at(from.NewIterator(rocksdb::ReadOptions()));
        for (at->SeekToFirst(); at->Valid(); at->Next()) put(store::path_of(at->key().ToStringView())) = at->value().ToString();
        store::check(at->status());
    }
    void write_to(rocksdb::DB &to) {
        std::vector<std::pair<const path *, const std::string *>> all;
        by_name_.each([&](const path &row, const std::string &stored) {
            if (!stored.empty()) all.emplace_back(&row, &stored);
        });
        // in order, which RocksDB takes far faster
        std::sort(all.begin(), all.end(), [](const auto &a, const auto &b) {
            const std::uint32_t *const one = a.first->numbers, *const other = b.first->numbers;
            return std::lexicographical_compare(one, one + a.first->level, other, other + b.first->level);
        });
        rocksdb::WriteBatch batch;
        for (const auto &[row, stored] : all) store::check(batch.Put(store::key_of(*row), *stored));
        store::check(to.Write(rocksdb::WriteOptions(), &batch));
    }
};

// Reads and writes such rows where they are, under locks, and keeps what was stored before until the commit: in place of store::locked.
template <class Locks> class in_memory {
public:
    template <class... From> explicit in_memory(rows &stored, From &...from) : rows_(stored), locks_(from...) {}

    void begin() { locks_.begin(); }
    bool read(const path &row, mode in, std::string &stored) {
        locks_.lock(row, in);
        return look(row, stored);
    }
    bool look(const path &row, std::string &stored) {
        const std::string *const found = rows_.get(row);
        if (found != nullptr) stored = *found;
        return found != nullptr;
    }
    void write(const path &row, const std::string &stored) {
        locks_.lock(row, mode::X);
        std::string &at = rows_.put(row);
        before_.emplace_back(&at, at);
        at = stored;
    }
    template <class Each> void scan(const path &tree, Each each) {
        locks_.lock_tree(tree, mode::S);
        rows_.scan(tree, each);
    }
    void commit(bool next_follows) {
        before_.clear();
        locks_.commit(next_follows);
    }
    void restart() {
        undo();
        locks_.restart();
    }
    void abort() {
        undo();
        locks_.abort();
    }
    void rest() { locks_.rest(); }

private:
    void undo() {
        for (; !before_.empty(); before_.pop_back()) *before_.back().first = before_.back().second;
    }

    rows &rows_;
    std::vector<std::pair<std::string *, std::string>> before_;  // what was stored in each row that was written, the newest last
    Locks locks_;
};

}  // namespace bench
#endif
