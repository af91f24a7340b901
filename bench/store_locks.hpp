// Lock layers in place of store::offices: of each the locks of a client, as store::locked uses them.
#ifndef BENCH_STORE_LOCKS_HPP
#define BENCH_STORE_LOCKS_HPP
#include "store_rows.hpp"

#include <semaphore.h>
#include <rocksdb/utilities/transaction.h>
#include <rocksdb/utilities/transaction_db.h>
#ifdef BERKELEY_DB
#include <db.h>
#endif

namespace bench {

// One book of the lock manager behind a mutex, which is taken for each program. Clients have the programs of offices::client, and no
// time-outs.
class guarded_book {
    struct bed {
        sem_t woken;
        bed() { sem_init(&woken, 0, 0); }
        ~bed() { sem_destroy(&woken); }
    };
    static pelgaisti::options without_history(std::uint32_t clients) {
        pelgaisti::options how(clients);
        how.keep = 0;
        return how;
    }
    std::mutex guard_;
    pelgaisti::book book_;
    const std::unique_ptr<bed[]> beds_;  // of each session, on which its thread sleeps while its request waits
    std::atomic<std::uint32_t> taken_{0};

public:
    explicit guarded_book(std::uint32_t clients) : book_(without_history(clients)), beds_(new bed[clients]) {}

    class client {
        using kind = pelgaisti::kind;
        using start = pelgaisti::start;
        guarded_book &of_;
        const std::uint32_t session_;
        start next_ = start::begins;  // with what the next program starts: `nothing` while a transaction is open
        store::held_locks held_;

        pelgaisti::program_answer run(const pelgaisti::program &calls) {
            std::vector<std::uint32_t> ended;
            const auto answer = [&] {
                const std::lock_guard<std::mutex> lock(of_.guard_);
                const auto made = of_.book_.run(session_, calls);
                ended = of_.book_.ended();
                return made;
            }();
            for (std::uint32_t session : ended) sem_post(&of_.beds_[session - 1].woken);
            return answer;
        }
        // Whether the poll behind the wake-up stops, as it does where the session is a victim or waits still.
        pelgaisti::program_answer end_wait() {
            while (sem_wait(&of_.beds_[session_ - 1].woken) != 0) {}  // a signal may end the sleep early
            return run(pelgaisti::program(start::nothing, {pelgaisti::op::poll}));
        }

    public:
        explicit client(guarded_book &of) : of_(of), session_(++of.taken_) {}

        void begin() {}
        void lock(const path &on, mode in) {
            std::uint32_t level = held_.levels_locked(on, in);
            while (level < on.level) {
                const std::size_t before = next_ == start::nothing ? 0 : next_ == start::commits_and_begins ? 2 : 1;
                const auto answer = run(pelgaisti::program::locks(next_, on, in, level));
                next_ = start::nothing;
                if (answer.starved) throw std::bad_alloc();
                auto last = answer;
                while (last.stopped_at(kind::waiting)) last = end_wait();
                if (last.stopped_at(kind::deadlock)) throw store::must_retry(store::must_retry::reason::deadlock);
                if (last.stopped()) throw std::runtime_error(name(last.why()));
                // the level at which it has waited is locked, too
                for (std::size_t k = before; k < answer.served; ++k) held_.note(on, ++level, in);
            }
        }
        void lock_tree(const path &on, mode in) { lock(on, in); }
        void commit(bool next_follows) {
            if (next_ == start::nothing) next_ = start::commits_and_begins, held_.clear();
            if (!next_follows) rest();
        }
        void restart() {
            if (next_ == start::nothing) next_ = start::restarts, held_.clear();
        }
        void abort() {
            static_cast<void>(run(pelgaisti::program(start::aborts)));  // refused if there is no transaction
            next_ = start::begins, held_.clear();
        }
        void rest() {
            if (next_ == start::commits_and_begins) static_cast<void>(run(pelgaisti::program(start::commits)));
            next_ = start::begins;
        }
    };
};

// Locks without levels, which are shared or exclusive. A path's first three numbers are locked: the lines of an order by the order, the
// payments of a customer by the customer, as those do who have levels. There is no U; an exclusive lock is in its place.
class no_levels {
    std::vector<std::pair<path, bool>> held_;  // each with whether it is exclusive

protected:
    // Notes a lock. Whether it is to be asked for: it isn't held.
    bool takes(const path &on, bool is_exclusive) {
        for (const auto &[other, has] : held_) {
            if (!store::same_path()(other, on)) continue;
            if (is_exclusive && !has) throw std::logic_error("a shared lock isn't made an exclusive one");
            return false;
        }
        held_.emplace_back(on, is_exclusive);
        return true;
    }
    void forget() { held_.clear(); }
    static path locked_by(const path &row) { return store::first_levels(row, std::min(row.level, 3u)); }

public:
    void lock_tree(const path &, mode) { throw std::logic_error("no subtree is locked"); }
    void rest() {}
};

// Whether RocksDB has found something. A deadlock, or a wait that took too long, is told by an exception.
inline bool is_found(const rocksdb::Status &status) {
    if (status.IsBusy()) throw store::must_retry(store::must_retry::reason::deadlock);
    if (status.IsTimedOut()) throw store::must_retry(store::must_retry::reason::limit);
    if (!status.IsNotFound()) store::check(status);
    return status.ok();
}

// The locks of RocksDB's pessimistic transactions, without anything else of them: no row is read or written by them.
class point_locks : public no_levels {
    rocksdb::TransactionDB &of_;
    rocksdb::TransactionOptions how_;
    std::unique_ptr<rocksdb::Transaction> made_;

public:
    explicit point_locks(rocksdb::TransactionDB &of) : of_(of) { how_.deadlock_detect = true; }

    void begin() { made_.reset(of_.BeginTransaction(rocksdb::WriteOptions(), how_, made_.release())); }
    void lock(const path &row, mode in) {
        const path on = locked_by(row);
        const bool is_exclusive = in != mode::S;
        std::string *const unread = nullptr;
        if (takes(on, is_exclusive)) is_found(made_->GetForUpdate(rocksdb::ReadOptions(), store::key_of(on), unread, is_exclusive, false));
    }
    void commit(bool) {
        store::check(made_->Rollback());
        forget();
    }
    void restart() {
        commit(false);
        begin();
    }
    void abort() { commit(false); }
};

// A std::shared_mutex for each row, in a hash table of their own. Nobody looks for cycles of waits, and none waits for a time: the orders
// lock in one order, by warehouses, and in each of them by tables.
class plain_locks {
    by_path<std::shared_mutex> locks_;

public:
    class client : public no_levels {
        plain_locks &of_;
        std::vector<std::pair<std::shared_mutex *, bool>> taken_;  // each with whether it is exclusive

    public:
        explicit client(plain_locks &of) : of_(of) {}

        void begin() {}
        void lock(const path &row, mode in) {
            const path on = locked_by(row);
            const bool is_exclusive = in != mode::S;
            if (!takes(on, is_exclusive)) return;
            std::shared_mutex *const it = of_.locks_.enter(on).first;
            is_exclusive ? it->lock() : it->lock_shared();
            taken_.emplace_back(it, is_exclusive);
        }
        void commit(bool) {
            for (const auto &[it, is_exclusive] : taken_) is_exclusive ? it->unlock() : it->unlock_shared();
            taken_.clear();
            forget();
        }
        void restart() { commit(false); }
        void abort() { commit(false); }
    };
};

#ifdef BERKELEY_DB
class environment {
    DB_ENV *made_ = nullptr;
    static void must(int failed) {
        if (failed) throw std::runtime_error(db_strerror(failed));
    }

public:
    environment() {
        must(db_env_create(&made_, 0));
        must(made_->set_lk_max_locks(made_, 400000));
        must(made_->set_lk_max_objects(made_, 400000));
        must(made_->set_lk_max_lockers(made_, 20000));
        must(made_->set_lk_detect(made_, DB_LOCK_YOUNGEST));
        must(made_->open(made_, nullptr, DB_PRIVATE | DB_INIT_LOCK | DB_THREAD | DB_CREATE, 0));
    }
    ~environment() { made_->close(made_, 0); }

    // The locks of a client, in place of store::offices::client.
    class client {
        DB_ENV *const of_;
        u_int32_t locker_ = 0;
        store::held_locks held_;

        static db_lockmode_t mode_of(mode it) {
            return it == mode::IS ? DB_LOCK_IREAD : it == mode::IX ? DB_LOCK_IWRITE : it == mode::S ? DB_LOCK_READ : DB_LOCK_WRITE;
        }

    public:
        explicit client(environment &of) : of_(of.made_) {}
        void begin() { must(of_->lock_id(of_, &locker_)); }
        void lock(const path &on, mode asked) {
            const mode in = asked == mode::U ? mode::X : asked;
            for (std::uint32_t level = held_.levels_locked(on, in) + 1; level <= on.level; ++level) {
                std::uint32_t numbers[PELGAISTI_LEVELS];
                std::copy(on.numbers, on.numbers + level, numbers);
                DBT object{};
                DB_LOCK got;
                object.data = numbers;
                object.size = 4 * level;
                const int failed = of_->lock_get(of_, locker_, 0, &object, mode_of(level < on.level ? store::parent_mode(in) : in), &got);
                if (failed == DB_LOCK_DEADLOCK) throw store::must_retry(store::must_retry::reason::deadlock);
                must(failed);
                held_.note(on, level, in);
            }
        }
        void lock_tree(const path &on, mode in) { lock(on, in); }
        void commit(bool) {
            DB_LOCKREQ all{};
            all.op = DB_LOCK_PUT_ALL;
            must(of_->lock_vec(of_, locker_, 0, &all, 1, nullptr));
            must(of_->lock_id_free(of_, locker_));
            held_.clear();
        }
        void restart() {
            commit(false);
            begin();
        }
        void abort() { commit(false); }
        void rest() {}
    };
};
#endif

}  // namespace bench
#endif
