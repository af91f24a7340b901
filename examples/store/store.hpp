// A store: transactions over RocksDB, kept apart by the locks of locks.hpp. A transaction reads the database as it is, under its locks, and
// writes into a batch, which its own reads see. A commit writes the batch to the database, with its log, and gives the locks back behind
// that; to undo a transaction is to drop its batch.
//
//     store::database rows("folder");
//     store::client client(rows);                                  // for one thread
//     client.run([](store::transaction &t) { t.write({1, 1, 7}, "seven"); });
//
// Each row has a version, and the number of the transaction that wrote it. A client that has a log writes into it which versions its
// transactions have read and written: graph.hpp judges such logs.
#ifndef STORE_STORE_HPP
#define STORE_STORE_HPP
#include "locks.hpp"

#include <memory>
#include <optional>
#include <rocksdb/db.h>
#include <rocksdb/utilities/write_batch_with_index.h>
#include <string_view>
#include <type_traits>
#include <utility>

namespace store {

inline void check(const rocksdb::Status &status) {
    if (!status.ok()) throw std::runtime_error(status.ToString());
}

// Numbers with the greatest byte first, so that keys are in the order of their paths and a subtree's have its path for a prefix.
inline void append(std::string &to, std::uint64_t number, int bytes) {
    while (bytes-- > 0) to.push_back(static_cast<char>(number >> 8 * bytes));
}
inline std::uint64_t number_at(std::string_view in, std::size_t from, std::size_t bytes) {
    std::uint64_t number = 0;
    for (std::size_t k = 0; k < bytes; ++k) number = number << 8 | static_cast<unsigned char>(in[from + k]);
    return number;
}
inline std::string key_of(const path &row) {
    std::string key;
    for (std::uint32_t k = 0; k < row.level; ++k) append(key, row.numbers[k], 4);
    return key;
}
inline path path_of(std::string_view key) {
    std::uint32_t numbers[PELGAISTI_LEVELS] = {};
    for (std::size_t k = 0; k < key.size() / 4 && k < PELGAISTI_LEVELS; ++k)
        numbers[k] = static_cast<std::uint32_t>(number_at(key, 4 * k, 4));
    return path(numbers, key.size() / 4);
}

// What stands before the value of a row. A row that was never written has version 0; one that was erased goes on counting.
struct header {
    std::uint64_t version = 0, writer = 0;
    bool is_there = false;
    enum : std::size_t { bytes = 17 };
    static header of(std::string_view stored) {
        return {number_at(stored, 0, 8), number_at(stored, 8, 8), stored[16] != 0};
    }
    std::string before(std::string_view value) const {
        std::string stored;
        stored.reserve(bytes + value.size());
        append(stored, version, 8);
        append(stored, writer, 8);
        stored.push_back(is_there);
        return stored.append(value);
    }
};

// Writes rows that are there before any transaction: their version is 1, and their writer 0.
inline void load(rocksdb::WriteBatch &into, const path &row, std::string_view value) {
    check(into.Put(key_of(row), header{1, 0, true}.before(value)));
}

// What a committed transaction has read, and of whom; or what it has written.
struct access {
    std::uint64_t transaction = 0;
    path row = {};
    std::uint64_t version = 0, writer = 0;
    bool is_write = false;
};

// Reads the database under locks, and writes into a batch: what a transaction is over. `Locks` are those of a client.
template <class Locks> class locked {
public:
    template <class... From> explicit locked(rocksdb::DB &rows, From &...from) : rows_(rows), locks_(from...) {}

    void begin() { locks_.begin(); }
    // Whether there is such a row, as it is stored.
    bool read(const path &row, mode in, std::string &stored) {
        locks_.lock(row, in);
        return look(row, stored);
    }
    bool look(const path &row, std::string &stored) {
        const rocksdb::Status status = batch_.GetFromBatchAndDB(&rows_, rocksdb::ReadOptions(), key_of(row), &stored);
        if (!status.IsNotFound()) check(status);
        return status.ok();
    }
    void write(const path &row, const std::string &stored) {
        locks_.lock(row, mode::X);
        check(batch_.Put(key_of(row), stored));
    }
    // Calls `each` with the key and what is stored of all rows of a subtree, in order.
    template <class Each> void scan(const path &tree, Each each) {
        locks_.lock_tree(tree, mode::S);
        const std::string prefix = key_of(tree);
        std::unique_ptr<rocksdb::Iterator> at(batch_.NewIteratorWithBase(rows_.NewIterator(rocksdb::ReadOptions())));
        for (at->Seek(prefix); at->Valid() && at->key().starts_with(prefix); at->Next())
            each(at->key().ToStringView(), at->value().ToStringView());
        check(at->status());
    }
    void commit(bool next_follows) {
        if (batch_.GetWriteBatch()->Count() > 0) check(rows_.Write(rocksdb::WriteOptions(), batch_.GetWriteBatch()));
        batch_.Clear();
        locks_.commit(next_follows);
    }
    void restart() {
        batch_.Clear();
        locks_.restart();
    }
    void abort() {
        batch_.Clear();
        locks_.abort();
    }
    void rest() { locks_.rest(); }

private:
    rocksdb::DB &rows_;
    rocksdb::WriteBatchWithIndex batch_{rocksdb::BytewiseComparator(), 0, true};
    Locks locks_;
};

template <class Under> class client_over;

// What is done in a transaction. Each call throws must_retry where the transaction can't go on; `run` of its client makes it again.
template <class Under> class transaction_over {
public:
    // The value of a row, if there is one, under S: it stays as it is to the end of the transaction.
    std::optional<std::string> read(const path &row) { return read_under(row, mode::S); }
    // The same under U, for a row that this transaction will write: others read it meanwhile, but none to write it.
    std::optional<std::string> read_to_write(const path &row) { return read_under(row, mode::U); }
    // The same without a lock, for a row that is never written.
    std::optional<std::string> look(const path &row) {
        return under_.look(row, stored_) ? std::optional(stored_.substr(header::bytes)) : std::nullopt;
    }
    void write(const path &row, std::string_view value) { put(row, value, true); }
    void erase(const path &row) { put(row, {}, false); }
    // Writes a row that was never there, as the caller knows: it isn't read.
    void insert(const path &row, std::string_view value) {
        seen_.try_emplace(row);
        put(row, value, true);
    }
    // Calls `each` with the path and the value of all rows of a subtree, in order, under S on the subtree: no row comes or goes in it.
    template <class Each> void scan(const path &tree, Each each) {
        under_.scan(tree, [&](std::string_view key, std::string_view stored) {
            const path row = path_of(key);
            const header has = header::of(stored);
            note(row, has);
            if (has.is_there) each(row, stored.substr(header::bytes));
        });
    }

private:
    friend class client_over<Under>;
    struct seen {
        std::uint64_t version = 0;
        bool is_written = false;
    };

    template <class... From> explicit transaction_over(From &...from) : under_(from...) {}

    std::optional<std::string> read_under(const path &row, mode in) {
        return find(row, in).is_there ? std::optional(stored_.substr(header::bytes)) : std::nullopt;
    }
    header find(const path &row, mode in) {
        const header has = under_.read(row, in, stored_) ? header::of(stored_) : header{};
        note(row, has);
        return has;
    }
    void note(const path &row, const header &has) {
        if (seen_.try_emplace(row, seen{has.version, false}).second && log_) log_->push_back({number_, row, has.version, has.writer, false});
    }
    void put(const path &row, std::string_view value, bool is_there) {
        auto at = seen_.find(row);
        if (at == seen_.end()) find(row, mode::X), at = seen_.find(row);
        const std::uint64_t version = at->second.version + !at->second.is_written;
        under_.write(row, header{version, number_, is_there}.before(value));
        if (!at->second.is_written && log_) log_->push_back({number_, row, version, number_, true});
        at->second = {version, true};
    }

    void begin(std::uint64_t number) {
        number_ = number;
        mark_ = log_ ? log_->size() : 0;
        start_again();
        under_.begin();
    }
    // Forgets what was read and written.
    void start_again() {
        seen_.clear();
        if (log_) log_->resize(mark_);
    }

    Under under_;
    std::unordered_map<path, seen, path_hash, same_path> seen_;
    std::string stored_;
    std::vector<access> *log_ = nullptr;
    std::uint64_t number_ = 0;
    std::size_t mark_ = 0;
};

// What comes behind a transaction of a client: another one of its own at once, by which this one gives its locks back; or it may be long.
enum class then { next, pause };

// Makes transactions, one after another, on one thread at a time.
template <class Under> class client_over {
public:
    using transaction = transaction_over<Under>;
    struct counts {
        std::uint64_t made = 0, deadlocks = 0, limits = 0;
    };

    template <class... From> explicit client_over(From &...from) : transaction_(from...) {}

    // Makes a transaction of `work`, which is called with it, again until it can be committed. What `work` throws undoes the transaction.
    template <class Work> auto run(Work work, then behind = then::pause) {
        begin();
        for (unsigned waited = 0;;) {
            try {
                if constexpr (std::is_void_v<decltype(work(transaction_))>) {
                    work(transaction_);
                    return commit(behind);
                } else {
                    auto made = work(transaction_);
                    commit(behind);
                    return made;
                }
            } catch (const must_retry &why) {
                if (why.why == must_retry::reason::limit && ++waited == most_limits) {
                    abort();
                    throw;
                }
                again(why);
            } catch (...) {
                abort();
                throw;
            }
        }
    }

    // The same in steps, for an engine whose transactions come a statement at a time. Behind must_retry either `again` or `abort` follows.
    transaction &begin() {
        transaction_.begin(first_number_ + counts_.made + undone_);
        return transaction_;
    }
    void commit(then behind = then::pause) {
        transaction_.under_.commit(behind == then::next);
        ++counts_.made;
    }
    void again(const must_retry &why) {
        ++(why.why == must_retry::reason::deadlock ? counts_.deadlocks : counts_.limits);
        transaction_.start_again();
        transaction_.under_.restart();
    }
    void abort() {
        ++undone_;
        transaction_.start_again();
        transaction_.under_.abort();
    }
    // Behind a transaction with `then::next`, if none follows after all.
    void rest() { transaction_.under_.rest(); }

    void write_log(std::vector<access> *log) { transaction_.log_ = log; }
    const counts &counted() const { return counts_; }

private:
    enum : unsigned { most_limits = 100 };  // a transaction that has waited for too long so often is given up

    static std::uint64_t next_client() {
        static std::atomic<std::uint64_t> clients{0};
        return ++clients;
    }
    const std::uint64_t first_number_ = (next_client() << 40) + 1;
    std::uint64_t undone_ = 0;
    counts counts_;
    transaction transaction_;
};

using transaction = transaction_over<locked<offices::client>>;

// A folder of RocksDB, with the offices of its locks.
class database {
public:
    explicit database(const std::string &folder, const offices::options &asked = {}) : locks_(asked) {
        rocksdb::Options how;
        rocksdb::DB *opened = nullptr;
        how.create_if_missing = true;
        check(rocksdb::DB::Open(how, folder, &opened));
        rows_.reset(opened);
    }
    rocksdb::DB &rows() { return *rows_; }
    offices &locks() { return locks_; }

private:
    std::unique_ptr<rocksdb::DB> rows_;
    offices locks_;
};

// A client of a database, which is closed behind all its clients.
class client : public client_over<locked<offices::client>> {
public:
    explicit client(database &of) : client_over(of.rows(), of.locks()) {}
};

}  // namespace store
#endif
