// Locks for a store: strict two-phase locking by offices of the lock manager, for clients that each have one thread at a time.
//
// A client has a session in each office. It locks a row, or a whole subtree, by a program: what is left to do of the transaction before
// (commit it, or restart it as a deadlock's victim), a begin, and the path. While a request waits, its thread sleeps in the library, which
// takes the request back when its time is over. It remembers which locks it holds, so that it asks for none twice.
#ifndef STORE_LOCKS_HPP
#define STORE_LOCKS_HPP
#include "pelgaisti.hpp"

#include <algorithm>
#include <atomic>
#include <chrono>
#include <cstdint>
#include <cstring>
#include <exception>
#include <memory>
#include <mutex>
#include <stdexcept>
#include <string>
#include <thread>
#include <unordered_map>
#include <vector>

namespace store {

// The name of a row, and of its lock: a database, a table, and one to three numbers. A subtree is named by its first numbers.
using path = pelgaisti::resource;
using pelgaisti::mode;

struct path_hash {
    std::size_t operator()(const path &it) const {
        std::uint64_t mixed = it.level;
        for (std::uint32_t number : it.numbers) mixed = (mixed ^ number) * 0x9e3779b97f4a7c15u, mixed ^= mixed >> 29;
        return mixed;
    }
};
struct same_path {
    bool operator()(const path &a, const path &b) const {
        return a.level == b.level && std::memcmp(a.numbers, b.numbers, sizeof a.numbers) == 0;
    }
};

// Thrown where a transaction can't go on: what it has done is undone, and it is made again.
class must_retry : public std::exception {
public:
    enum class reason { deadlock, limit } why;  // it is a deadlock's victim; or a request has waited for too long
    explicit must_retry(reason is) : why(is) {}
    const char *what() const noexcept override { return why == reason::deadlock ? "a deadlock's victim" : "waited for too long"; }
};

// Whether a lock in the one mode is one in the other, too. The or of two modes' codes is their least upper bound's.
inline bool covers(mode held, mode asked) {
    return (static_cast<std::uint32_t>(held) | static_cast<std::uint32_t>(asked)) == static_cast<std::uint32_t>(held);
}
// Whether a lock on an ancestor gives this access to what is below it, so that nothing is to be locked there.
inline bool reaches_down(mode above, mode asked) { return above == mode::X || (asked == mode::S && covers(above, mode::S)); }
inline mode parent_mode(mode of) { return static_cast<mode>(pelgaisti_parent_mode(static_cast<std::uint32_t>(of))); }
inline path first_levels(const path &of, std::uint32_t level) { return path(of.numbers, level); }

// Which locks a transaction holds.
class held_locks {
    std::unordered_map<path, mode, path_hash, same_path> held_;

    mode on(const path &it) const {
        const auto found = held_.find(it);
        return found == held_.end() ? mode::NL : found->second;
    }

public:
    std::vector<path> rows;  // what is held in another mode than IS and IX, in the order in which it was locked

    // How many levels of a path are locked as they have to be for a lock in this mode: all if what is held suffices.
    std::uint32_t levels_locked(const path &row, mode in) const {
        std::uint32_t locked = row.level - 1;
        if (covers(on(row), in)) return row.level;
        for (std::uint32_t level = row.level - 1; level > 0; --level) {
            const mode has = on(first_levels(row, level));
            if (reaches_down(has, in)) return row.level;
            if (!covers(has, parent_mode(in))) locked = level - 1;
        }
        return locked;
    }
    // This level of the path to a row, which was to be locked in this mode, is locked.
    void note(const path &row, std::uint32_t level, mode in) {
        const path got = first_levels(row, level);
        const mode asked = level < row.level ? parent_mode(in) : in;
        mode &has = held_[got];
        if (covers(mode::IX, has) && !covers(mode::IX, asked)) rows.push_back(got);
        has = static_cast<mode>(static_cast<std::uint32_t>(has) | static_cast<std::uint32_t>(asked));
    }
    void forget_newest_row() {
        held_.erase(rows.back());
        rows.pop_back();
    }
    void clear() {
        held_.clear();
        rows.clear();
    }
};

class offices {
public:
    struct options {
        std::size_t clients = 16;                // so many at a time: the sessions of each office
        std::size_t count = 1;                   // offices, to which databases are dealt out by their numbers
        std::size_t keeps = 0;                   // a transaction with at most so many row locks leaves its intention locks to the next one
        std::chrono::milliseconds limit{1000};   // how long a request waits; up to half of it longer, at random
        bool looks = true;                       // with several offices: whether who begins to wait looks for cycles across them
        std::uint64_t history = 0;               // how many entries of its history an office keeps
    };
    class client;

    explicit offices(const options &asked) : asked_(asked), since_(new std::atomic<std::uint64_t>[asked.clients]()) {
        pelgaisti::options how(asked.clients);
        how.keep = asked.history;
        for (std::size_t k = 0; k < asked.count; ++k) all_.push_back(std::make_unique<pelgaisti::office>(how));
    }

    // Ends the transactions of clients that are gone. Whoever connects does so, and whoever has waited for too long.
    void look_after_orphans() {
        const std::lock_guard<std::mutex> lock(guard_);
        for (auto &in : all_)
            for (auto &lost : in->orphans()) end(*lost);
    }

private:
    // Runs a program, or without one the pending one, and goes on with it until memory isn't refused any more: what gives locks back has to
    // be done.
    static pelgaisti::program_answer insist(pelgaisti::session &session, const pelgaisti::program *calls) {
        for (;; std::this_thread::sleep_for(std::chrono::milliseconds(1))) {
            try {
                return calls != nullptr ? session.run(*calls) : session.resume_program();
            } catch (const pelgaisti::error &why) {
                if (why.status() != PELGAISTI_NO_MEMORY) throw;
            }
            calls = nullptr;  // it is pending
        }
    }

    // Ends whatever a session has: a pending program, a request that waits, a transaction.
    static void end(pelgaisti::session &session) {
        const pelgaisti::program aborts(pelgaisti::start::aborts);
        try {
            static_cast<void>(insist(session, nullptr));
        } catch (const pelgaisti::error &why) {
            if (why.status() != PELGAISTI_NOTHING_PENDING) throw;
        }
        static_cast<void>(insist(session, &aborts));  // refused if there is no transaction
    }

    const options asked_;
    std::vector<std::unique_ptr<pelgaisti::office>> all_;
    std::mutex guard_;                     // of taking sessions and of looking after orphans
    std::atomic<unsigned> tree_locks_{0};  // how many clients have, or want, a whole subtree
    std::atomic<std::uint64_t> waits_{0};  // of all clients, while there are several offices
    std::unique_ptr<std::atomic<std::uint64_t>[]> since_;  // of each client the number of its wait, 0 if it doesn't wait
};

// The locks of a client. It is used by one thread at a time.
class offices::client {
    using kind = pelgaisti::kind;
    using outcome = pelgaisti::outcome;
    using start = pelgaisti::start;
    // A client in an office.
    struct seat {
        pelgaisti::owned_session session;
        start next = start::begins;  // with what the next program starts: `nothing` while a transaction is open
        held_locks held;
    };
    enum : unsigned { most_kept = 64 };  // behind so many transactions that left their intention locks one commits them all

public:
    explicit client(offices &of) : of_(of) {
        const std::lock_guard<std::mutex> lock(of.guard_);
        for (std::size_t k = 0; k < of.asked_.clients && !take_seats(k); ++k) {}
        if (seats_.empty()) throw std::runtime_error("there are as many clients as the store has room for");
        random_ = number_ = of.all_[0]->number(*seats_[0].session);
    }
    // A client that is dropped in its transaction, by an exception, leaves it to whoever looks after orphans: its sessions go back to their
    // offices. Else it gives back what it has left to its next transaction.
    ~client() {
        announce(false);
        if (!in_transaction_) try { rest(); } catch (const std::exception &) {}
    }
    client(const client &) = delete;
    client &operator=(const client &) = delete;

    void begin() {
        in_transaction_ = true;
        if (kept_ > 0 && (kept_ >= most_kept || of_.tree_locks_.load() > 0)) give_up_kept();
    }

    // Locks a row in S, U or X, unless a lock on it or above it suffices.
    void lock(const path &on, mode in) {
        seat &at = seats_[on.numbers[0] % seats_.size()];
        std::uint32_t level = at.held.levels_locked(on, in);
        if (level == on.level) return;
        for (seat &other : seats_)
            if (&other != &at) settle(other);
        const auto until = deadline();
        while (level < on.level) {
            const start first = at.next;
            const std::size_t before = calls_of(first);
            const auto answer = at.session->run(pelgaisti::program::locks(first, on, in, level));
            // memory may have been refused between the commit and the begin
            at.next = answer.served >= before ? start::nothing : start::begins;
            if (answer.starved) throw pelgaisti::error(PELGAISTI_NO_MEMORY);
            if (answer.stopped_at(kind::refused)) throw std::runtime_error(name(answer.why()));
            if (answer.stopped_at(kind::deadlock)) throw must_retry(must_retry::reason::deadlock);
            if (answer.stopped_at(kind::waiting)) wait(at, until);
            // the level at which it has waited is locked, too
            for (std::size_t k = before; k < answer.served; ++k) at.held.note(on, ++level, in);
        }
    }

    // Locks a whole subtree. Those who keep intention locks between transactions are told first.
    void lock_tree(const path &on, mode in) {
        announce(true);
        lock(on, in);
    }

    // Ends the transaction. If the next one follows at once, it commits this one by its first program: until then the locks are kept.
    void commit(bool next_follows) {
        const bool keeps = next_follows && of_.asked_.keeps > 0 && of_.tree_locks_.load() == 0;
        for (seat &at : seats_)
            if (at.next == start::nothing && !(keeps && give_back_rows(at))) at.next = start::commits_and_begins, at.held.clear();
        kept_ += keeps;
        announce(false);
        in_transaction_ = false;
        if (!next_follows) rest();
    }

    // Behind must_retry: what comes is another try of the transaction, which keeps its age. Its first program gives back all locks, so it
    // follows at once.
    void restart() {
        for (seat &at : seats_)
            if (at.next == start::nothing) at.next = start::restarts, at.held.clear();
        announce(false);
    }

    // Gives back all locks, whatever the transaction is at.
    void abort() {
        announce(false);
        for (seat &at : seats_) {
            end(*at.session);
            at.next = start::begins, at.held.clear();
        }
        in_transaction_ = false;
    }

    // Between transactions: gives back what the last one has left to the next one.
    void rest() {
        for (seat &at : seats_) {
            if (at.next == start::nothing) at.next = start::commits_and_begins, at.held.clear();
            settle(at);
        }
        kept_ = 0;
    }

private:
    // Takes the sessions of this index, if no other client has one of them. Whether it did.
    bool take_seats(std::size_t index) {
        for (auto &in : of_.all_) {
            seat made;
            made.session = in->take(index);
            if (!made.session) return seats_.clear(), false;
            end(*made.session);  // it may be one that was dropped
            seats_.push_back(std::move(made));
        }
        return true;
    }

    static std::size_t calls_of(start what) {
        return what == start::nothing ? 0 : what == start::commits_and_begins || what == start::aborts_and_begins ? 2 : 1;
    }

    // Sleeps until the session's request is granted. Takes it back when its time is over, or if it closes a cycle of waits across offices.
    void wait(seat &at, std::chrono::steady_clock::time_point until) {
        const bool is_victim = seats_.size() > 1 && of_.asked_.looks && closes_cycle();
        const auto found = at.session->wait(is_victim ? std::chrono::nanoseconds(0) : until - std::chrono::steady_clock::now());
        of_.since_[number_ - 1] = 0;
        if (found) return;
        if (found.outcome == outcome::denied) throw std::runtime_error(name(found.why));
        if (is_victim || found.outcome == outcome::victim) throw must_retry(must_retry::reason::deadlock);
        of_.look_after_orphans();
        throw must_retry(must_retry::reason::limit);
    }

    // Whether this client waits for itself by way of others that began to wait before it, in whichever offices. No lock table sees a cycle
    // across offices; the last to begin its wait on one sees the others wait, and gives up. The offices are asked one after another, so a
    // cycle may be gone when it is found.
    bool closes_cycle() {
        const std::uint64_t own = of_.since_[number_ - 1] = ++of_.waits_;
        std::vector<std::uint32_t> left{number_};
        std::vector<bool> seen(of_.asked_.clients + 1);
        while (!left.empty()) {
            const std::uint32_t who = left.back();
            left.pop_back();
            for (seat &at : seats_) {
                const auto blockers = at.session->look().blockers(who);  // a client has the same number in each office
                for (std::uint32_t other : blockers) {
                    if (other == number_) return true;
                    const std::uint64_t since = of_.since_[other - 1].load();
                    if (seen[other] || since == 0 || since > own) continue;
                    seen[other] = true;
                    left.push_back(other);
                }
            }
        }
        return false;
    }

    // Commits what another office's locks were left for; or gives back a victim's there, whose transaction stays open with its age.
    static void settle(seat &at) {
        if (at.next != start::commits_and_begins && at.next != start::restarts) return;
        const bool commits = at.next == start::commits_and_begins;
        const pelgaisti::program gives_back(commits ? start::commits : start::restarts);
        static_cast<void>(insist(*at.session, &gives_back));
        at.next = commits ? start::begins : start::nothing;
    }

    // Releases the rows' locks, the newest first, and leaves the intention locks to the client's next transaction. Whether it did.
    bool give_back_rows(seat &at) {
        if (at.held.rows.size() > of_.asked_.keeps) return false;
        while (!at.held.rows.empty()) {
            const pelgaisti::program releases(start::nothing, {pelgaisti::op::release, mode::NL, at.held.rows.back()});
            if (insist(*at.session, &releases).stopped()) return false;  // something below is held, too
            at.held.forget_newest_row();
        }
        return true;
    }

    void give_up_kept() {
        for (seat &at : seats_)
            if (at.next == start::nothing) at.next = start::commits_and_begins, at.held.clear();
        kept_ = 0;
    }

    void announce(bool wants) {
        if (wants == wants_tree_) return;
        wants_tree_ = wants;
        of_.tree_locks_ += wants ? 1u : -1u;
    }

    // A limit that differs from client to client, and from time to time, so that two whose requests wait for one another in two offices
    // don't both give up.
    std::chrono::steady_clock::time_point deadline() {
        random_ = random_ * 6364136223846793005u + 1442695040888963407u;
        return std::chrono::steady_clock::now() + of_.asked_.limit * (64 + static_cast<int>(random_ >> 59)) / 64;
    }

    offices &of_;
    std::vector<seat> seats_;
    std::uint32_t number_ = 0;
    std::uint64_t random_ = 0;
    unsigned kept_ = 0;
    bool in_transaction_ = false, wants_tree_ = false;
};

}  // namespace store
#endif
