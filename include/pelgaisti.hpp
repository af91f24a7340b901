/*
 * Pelgaisti for C++17: the calls of pelgaisti.h over handles that close themselves and can be neither copied nor moved, and
 * enumerations with names:
 *     pelgaisti::book book{2};                                                // a lock table for one thread
 *     auto reply = book.serve(1, {pelgaisti::op::begin});
 *     pelgaisti::office office{4};                                            // one that four threads share
 *     auto locked = office[0].lock({7, 40}, pelgaisti::mode::X, 100ms);       // waits for it, with the intention lock above it
 *     auto view = office[0].look();                                           // the lock table of one moment, to the end of the scope
 * A call that fails throws pelgaisti::error with its status, after which nothing has changed but what its comment says. Two statuses
 * are no failures and are told by the result: ELSEWHERE by serve and by a session's take_history, NOT_SERVED by collect and by calls with
 * a bound on their turns. Compiled with -fno-exceptions, a call that fails ends the program by std::abort.
 * A compiler warns of a result that is ignored where it tells what the caller has then: a reply or an answer, which may be WAITING,
 * how many calls of a batch or a program were served, and entries of the history that are taken out of the library's memory.
 * pelgaisti.h says what each call does and asks of its caller.
 */
#ifndef PELGAISTI_HPP
#define PELGAISTI_HPP
#if !defined(__cplusplus) || (__cplusplus < 201703L && (!defined(_MSVC_LANG) || _MSVC_LANG < 201703L))
#error "pelgaisti.hpp needs C++17 (-std=c++17); pelgaisti.h works in C and in C++11"
#else
#include "pelgaisti.h"
#include <algorithm>
#include <atomic>
#include <chrono>
#include <cmath>
#include <cstdint>
#include <cstdlib>
#include <exception>
#include <initializer_list>
#include <iosfwd>
#include <iterator>
#include <memory>
#include <mutex>
#include <optional>
#include <string>
#include <type_traits>
#include <utility>
#include <vector>

namespace pelgaisti {
using std::size_t, std::uint32_t, std::uint64_t;
using entry = pelgaisti_entry;
using waker = pelgaisti_waker;  // {wake, engine}: a function that may throw is no waker
enum class mode : uint32_t { NL = 0, IS = 1, IX = 3, S = 5, SIX = 7, X = 15, U = 13 };
enum class op : uint32_t { begin = 1, lock, convert, poll, release, commit, abort, try_lock, withdraw, restart };
enum class kind : uint32_t { began = 1, granted, waiting, deadlock, clear, released, committed, aborted, refused, withdrawn,
                             restarted };
enum class refusal : uint64_t { already_open = 1, no_transaction, is_waiting, is_doomed, nothing_asked, not_held, parent_not_held,
                                child_held, too_many_locks, would_wait = 11, not_waiting };
inline const char *name(mode it) { return pelgaisti_mode_name(static_cast<uint64_t>(it)); }
inline const char *name(op it) { return pelgaisti_op_name(static_cast<uint64_t>(it)); }
inline const char *name(kind it) { return pelgaisti_reply_name(static_cast<uint64_t>(it)); }
inline const char *name(refusal it) { return pelgaisti_refusal_name(static_cast<uint64_t>(it)); }
// What a failed call throws: its status, with the status's name.
class error : public std::exception {
    pelgaisti_status status_;
public:
    explicit error(pelgaisti_status status) noexcept : status_(status) {}
    pelgaisti_status status() const noexcept { return status_; }
    const char *what() const noexcept override { return pelgaisti_status_name(status_); }
};
// What opening throws if the program runs with a library of another version than this header.
class other_version : public std::exception {
public:
    const char *what() const noexcept override { return "the library is of another version than pelgaisti.h"; }
};
template <class Error> [[noreturn]] void fail(const Error &why) {
#if defined(__cpp_exceptions)
    throw why;
#else
    static_cast<void>(why), std::abort();
#endif
}
inline void check(pelgaisti_status status) { if (status != PELGAISTI_OK) fail(error(status)); }
inline void check_version() { if (pelgaisti_version() != PELGAISTI_HEADER_VERSION) fail(other_version()); }
// How a book or an office is opened. A number of sessions has all else by default:
//     pelgaisti::options how{4};
//     how.deadlocks = 16;
struct options : pelgaisti_options {
    options(size_t count) : pelgaisti_options(PELGAISTI_OPTIONS(count < UINT32_MAX ? static_cast<uint32_t>(count) : UINT32_MAX)) {}
};
// What a call writes to its last argument.
template <class T, class Call> T made_by(Call call) {
    T made{};
    return check(call(&made)), made;
}
// The list that a call writes, of at most `room` items. Behind the call it asks for no memory: what was taken out of the library is in the list.
template <class T, class Call> std::vector<T> list_by(size_t room, Call call) {
    std::vector<T> list(room);
    list.resize(made_by<size_t>([&](auto *count) { return call(list.data(), count); }));
    return list;
}
// The whole list of a call that writes as much of it as there is room for, with how many items it has: made again until all fit.
template <class T, class Call> std::vector<T> whole_list(Call call) {
    std::vector<T> list(8);
    for (size_t count = 0;;) {
        check(call(list.data(), list.size(), &count));
        const bool are_all = count <= list.size();
        list.resize(count);
        if (are_all) return list;
    }
}
// A path of 1 to PELGAISTI_LEVELS numbers: written out, from where they lie one behind another, or what has them so, as an array, a
// vector or a span. With another count of numbers the calls fail with NO_SUCH_LEVEL.
struct resource : pelgaisti_resource {
    resource(std::initializer_list<uint32_t> path) : resource(path.begin(), path.size()) {}
    template <class Path, class = std::enable_if_t<std::is_convertible_v<decltype(std::data(std::declval<const Path &>())), const uint32_t *>>>
    resource(const Path &path) : resource(std::data(path), std::size(path)) {}
    resource(const pelgaisti_resource &it) : pelgaisti_resource(it) {}
    resource(const uint32_t *path, size_t count) : pelgaisti_resource{} {
        for (; level < count && level <= PELGAISTI_LEVELS; level++)
            if (level < PELGAISTI_LEVELS) numbers[level] = path[level];
    }
};
struct call : pelgaisti_call {
    call(pelgaisti::op what, pelgaisti::mode in = pelgaisti::mode::NL, const pelgaisti::resource &on = {})
        : pelgaisti_call{static_cast<uint32_t>(what), static_cast<uint32_t>(in), on} {}
};
// A reply: `value` is the transaction's number, the mode's code, the number of locks or that of the refusal.
struct [[nodiscard]] reply {
    pelgaisti::kind kind; uint64_t value;
    explicit reply(const pelgaisti_reply &it) : kind(static_cast<pelgaisti::kind>(it.kind)), value(it.value) {}
};
struct [[nodiscard]] answer { uint64_t place; pelgaisti::reply reply; };
// How a lock that was waited for has ended: how many levels of the path are held as asked for, why it was denied, and the place of the last
// call. A victim undoes, and aborts or restarts.
enum class outcome : uint32_t { granted = PELGAISTI_OK, victim = PELGAISTI_VICTIM, timed_out = PELGAISTI_TIMED_OUT,
                                denied = PELGAISTI_DENIED };
struct [[nodiscard]] locked {
    pelgaisti::outcome outcome; uint32_t level; refusal why; uint64_t place;
    explicit operator bool() const { return outcome == pelgaisti::outcome::granted; }
};
template <class Rep, class Period> uint64_t milliseconds_of(const std::chrono::duration<Rep, Period> &within) {
    const auto all = std::ceil(std::chrono::duration<double, std::milli>(within).count());
    return !(all > 0) ? 0 : all < 1.8e19 ? static_cast<uint64_t>(all) : PELGAISTI_FOREVER;
}
// What a program does with the session's transaction first.
enum class start : uint32_t { nothing = 0, begins, commits, aborts, commits_and_begins, aborts_and_begins, restarts };
// The whole state of a lock table at one moment: its place in the history, and its rows, as pelgaisti_book_dump writes them.
struct dump {
    uint64_t place;
    std::vector<pelgaisti_claim> rows;
    // The rows of `glm show --csv`, as pelgaisti_dump_line writes them.
    std::string text() const {
        std::string all;
        char line[128];
        pelgaisti_dumping at = PELGAISTI_DUMPING;
        while (const uint32_t length = pelgaisti_dump_line(rows.data(), rows.size(), &at, line, sizeof line)) all.append(line, length);
        return all;
    }
};

// The counters of a history, as pelgaisti_counts has them, with the calls by op and the refused ones by refusal.
struct counts : pelgaisti_counts {
    uint64_t of(op what) const { return calls[static_cast<size_t>(what)]; }
    uint64_t of(refusal why) const { return refusals[static_cast<size_t>(why)]; }
};

// Several calls of a session that are made as one: what `first` says, and then one call or the locks of a path.
struct program : pelgaisti_program {
    // What `first` says, and no other call.
    explicit program(pelgaisti::start first) : pelgaisti_program{static_cast<uint32_t>(first), 0, 0, {}} {}
    // One call behind it, which doesn't begin, end or restart a transaction, as `first` does: else run fails with NO_SUCH_OP.
    program(pelgaisti::start first, const call &one) : pelgaisti_program{static_cast<uint32_t>(first), one.resource.level - 1, 0, one} {}
    // A path of which `level` levels are locked already: the other ancestors of the resource in the mode that `in` needs of a parent, and
    // the resource in `in`. If all are, run fails with NOT_ON_PATH.
    static program locks(pelgaisti::start first, const resource &on, mode in, uint32_t level = 0) {
        program made(first, {op::lock, in, on});
        made.level = level;
        made.above = pelgaisti_parent_mode(static_cast<uint32_t>(in));
        return made;
    }
};
// The answer to a program, with the fields of pelgaisti_program_answer.
struct [[nodiscard]] program_answer : pelgaisti_program_answer {
    explicit program_answer(const pelgaisti_program_answer &it) : pelgaisti_program_answer(it) {}
    bool stopped() const { return stop != 0; }
    bool stopped_at(kind it) const { return stop == static_cast<uint32_t>(it); }
    // Why the last call was refused, where it stopped at that.
    refusal why() const { return static_cast<refusal>(values[served - 1]); }
    // The replies one by one, of the program that was answered.
    std::vector<reply> replies(const program &calls) const {
        pelgaisti_reply list[PELGAISTI_CALLS];
        const uint32_t count = pelgaisti_program_replies(&calls, this, list);
        std::vector<reply> all;
        for (uint32_t k = 0; k < count; ++k) all.emplace_back(list[k]);
        return all;
    }
};
// A deadlock, as it was before its victim was doomed: the place in the history of the call that made it, the session of that call, and
// the sessions on the cycle: the victim first, each of which waits for the next one, and the last for the victim. A member's `held` is the
// code of the mode in which the next one held what it waited for, 0 if it didn't hold it, but had a request ahead in the queue.
using member = pelgaisti_member;
struct deadlock { uint64_t place; uint32_t session; std::vector<member> cycle; };
// A deadlock as lines of text, each with its line break, in the words of `glm explain`.
inline std::string to_string(const deadlock &it) {
    const pelgaisti_deadlock told{it.place, it.session, it.cycle.size()};
    std::string text(pelgaisti_deadlock_text(&told, it.cycle.data(), nullptr, 0), ' ');
    return static_cast<void>(pelgaisti_deadlock_text(&told, it.cycle.data(), &text[0], text.size() + 1)), text;
}
template <class Traits> std::basic_ostream<char, Traits> &operator<<(std::basic_ostream<char, Traits> &out, const deadlock &it) {
    return out << to_string(it).c_str();
}
struct pinned { pinned() = default; pinned(const pinned &) = delete; pinned &operator=(const pinned &) = delete; };
// A lock table that may be asked: a book, or the view of a session that looks.
class table : pinned {
public:
    // The sessions for which the session waits directly, by number.
    std::vector<uint32_t> blockers(uint32_t session) {
        return whole_list<uint32_t>([&](auto *at, size_t room, auto *n) { return pelgaisti_book_blockers(&handle_, session, at, room, n); });
    }
    mode held(uint32_t session, const resource &on) {
        return mode(made_by<uint32_t>([&](auto *code) { return pelgaisti_book_held(&handle_, session, &on, code); }));
    }
    std::vector<pelgaisti_holder> holders(const resource &on) {
        return whole_list<pelgaisti_holder>([&](auto *at, size_t room, auto *count) {
            return pelgaisti_book_holders(&handle_, &on, at, room, count); });
    }
    // The session's open transaction, with number 0 if it has none; and its waiting request, with kind 0 if it doesn't wait.
    pelgaisti_transaction transaction(uint32_t session) {
        return made_by<pelgaisti_transaction>([&](auto *made) { return pelgaisti_book_transaction(&handle_, session, made); });
    }
    pelgaisti_claim request(uint32_t session) {
        return made_by<pelgaisti_claim>([&](auto *made) { return pelgaisti_book_request(&handle_, session, made); });
    }
    // How many locks the session holds; and a page of them, up to `most`: the first ones, or those on resources behind `after`. Fewer than
    // `most` are the last page.
    size_t locks_held(uint32_t session) {
        return made_by<size_t>([&](auto *count) { return pelgaisti_book_locks_held(&handle_, session, count); });
    }
    std::vector<pelgaisti_claim> locks_of(uint32_t session, size_t most, const resource &after = {}) {
        most = (std::min)(most, size_t{PELGAISTI_MAX_LOCKS});
        return list_by<pelgaisti_claim>(most, [&](auto *at, auto *n) {
            return pelgaisti_book_locks_of(&handle_, session, &after, at, most, n); });
    }
    // The whole state, with its place in the history: a row for each open transaction, lock and waiting request.
    pelgaisti::dump dump() {
        uint64_t place = 0;
        auto rows = whole_list<pelgaisti_claim>([&](auto *at, size_t room, auto *count) {
            return pelgaisti_book_dump(&handle_, at, room, count, &place); });
        return {place, std::move(rows)};
    }
    // The counters of the history: how many calls there were, how they were answered, and how waits ended.
    pelgaisti::counts counts() { return made_by<pelgaisti::counts>([&](auto *made) { return pelgaisti_book_counts(&handle_, made); }); }
    // How many transactions are open, locks are held and requests wait, the longest queue, and the idle cells.
    pelgaisti_gauges gauges() { return made_by<pelgaisti_gauges>([&](auto *made) { return pelgaisti_book_gauges(&handle_, made); }); }
    // What the passes of the office have served; 0 of a book.
    pelgaisti_pass_counts passes() {
        return made_by<pelgaisti_pass_counts>([&](auto *made) { return pelgaisti_book_passes(&handle_, made); });
    }
    // The newest `most` of the deadlocks that are kept, oldest first. The call is made again with more room until all fit.
    std::vector<deadlock> deadlocks(size_t most = SIZE_MAX) {
        std::vector<pelgaisti_deadlock> list((std::min)(most, size_t{8}));
        std::vector<member> members(4 * list.size());
        for (size_t count = 0, all_members = 0;; list.resize(count), members.resize((std::max)(all_members, 4 * count))) {
            check(pelgaisti_book_deadlocks(&handle_, list.data(), list.size(), &count, members.data(), members.size(), &all_members));
            count = (std::min)(count, most);
            if (count > list.size() || all_members > members.size()) continue;
            std::vector<deadlock> told;
            const member *next = members.data();
            for (size_t k = 0; k < count; next += list[k++].members)
                told.push_back({list[k].place, list[k].session, {next, next + list[k].members}});
            return told;
        }
    }
    // How many entries the history has, with those that were let go; and the place of the first one that is kept.
    uint64_t length() { return places().second; }
    uint64_t first_kept() { return places().first; }
    // Up to `room` entries of the history from the place `first` on.
    std::vector<entry> history(uint64_t first, size_t room) {
        room = room_for(first, room);
        return list_by<entry>(room, [&](auto *at, auto *n) { return pelgaisti_book_history(&handle_, first, at, room, n); });
    }
    // Makes room, so that neither the table nor the history grows in a call until so many more resources and entries have come; gives back
    // memory that isn't in use.
    void reserve(size_t resources, size_t entries) { check(pelgaisti_book_reserve(&handle_, resources, entries)); }
    void shrink() { check(pelgaisti_book_shrink(&handle_)); }
protected:
    table() = default;
    ~table() = default;
    std::pair<uint64_t, uint64_t> places() {
        std::pair<uint64_t, uint64_t> made;
        return check(pelgaisti_book_length(&handle_, &made.first, &made.second)), made;
    }
    size_t room_for(uint64_t first, size_t room) {
        const uint64_t end = length();
        return first >= end ? 0 : end - first < room ? end - first : room;
    }
    pelgaisti_book handle_ = PELGAISTI_EMPTY;
};

class book : public table {
public:
    explicit book(const options &how) { check_version(), check(pelgaisti_book_open(&handle_, &how)); }
    ~book() { static_cast<void>(pelgaisti_book_close(&handle_)); }
    pelgaisti::reply serve(uint32_t session, const pelgaisti::call &call) {
        return reply(made_by<pelgaisti_reply>([&](auto *made) { return pelgaisti_book_serve(&handle_, session, &call, made); }));
    }
    // Serves the calls in order and makes each its entry of the history; how many were served: fewer if memory was refused.
    [[nodiscard]] size_t serve_batch(std::vector<entry> &calls) {
        return made_by<size_t>([&](auto *n) { return pelgaisti_book_serve_batch(&handle_, calls.data(), calls.size(), n); });
    }
    // Runs a program: its calls one after another, up to the first reply at which it stops.
    program_answer run(uint32_t session, const program &calls) {
        return program_answer(made_by<pelgaisti_program_answer>([&](auto *made) { return pelgaisti_book_run(&handle_, session, &calls, made); }));
    }
    // The sessions whose wait the last call, batch or program has ended.
    std::vector<uint32_t> ended() {
        return whole_list<uint32_t>([&](auto *at, size_t room, auto *n) { return pelgaisti_book_ended(&handle_, at, room, n); });
    }
    void keep_at_most(uint64_t bound) { check(pelgaisti_book_keep_at_most(&handle_, bound)); }
    // Up to `room` of the oldest entries that are kept, which the book lets go of. The first was at first_kept() before.
    [[nodiscard]] std::vector<entry> take_history(size_t room) {
        uint64_t first = first_kept();
        room = room_for(first, room);
        return list_by<entry>(room, [&](auto *at, auto *n) { return pelgaisti_book_take_history(&handle_, &first, at, room, n); });
    }
private:
    friend class office;
    book() = default;
};

// The look of a session, which ends where this goes out of scope; as a part of an expression where that ends. Until then the session is
// closed, and others wait for the table: a call of another session in the same scope, or expression, would wait for ever.
class [[nodiscard]] view : public table {
    friend class session;
    pelgaisti_session *const of_;
    explicit view(pelgaisti_session *of) : of_(of) { check(pelgaisti_session_look(of_, &handle_)); }
public:
    ~view() { static_cast<void>(pelgaisti_look_end(of_, &handle_)); }
};

class session : pinned {
public:
    void publish(const pelgaisti::call &call) { check(pelgaisti_session_publish(&handle_, &call, nullptr)); }
    // One try to take the lock table; what the pass did, or nothing if another session has it.
    std::optional<pelgaisti_pass> serve() {
        pelgaisti_pass pass{};
        return elsewhere(pelgaisti_session_serve(&handle_, &pass)) ? std::nullopt : std::optional(pass);
    }
    // The answer to the pending call, or nothing if the session knows none yet.
    [[nodiscard]] std::optional<answer> collect() { return told([&](auto *found) { return pelgaisti_session_collect(&handle_, found); }); }
    // Performs the call at once, or publishes, serves and collects: until there is an answer, or at most `turns` times. Nothing, or
    // NO_MEMORY: resume() goes on.
    answer perform(const pelgaisti::call &call) { return *perform(call, UINT64_MAX); }
    [[nodiscard]] std::optional<answer> perform(const pelgaisti::call &call, uint64_t turns) {
        return told([&](auto *found) { return pelgaisti_session_perform(&handle_, &call, turns, found); });
    }
    answer resume() { return *resume(UINT64_MAX); }
    [[nodiscard]] std::optional<answer> resume(uint64_t turns) {
        return told([&](auto *found) { return pelgaisti_session_perform(&handle_, nullptr, turns, found); });
    }
    // Runs a program so: no other session's call comes between its calls. Nothing, or NO_MEMORY: resume_program() goes on. So it does with a
    // pending call, which is a program of one.
    program_answer run(const program &calls) { return *run_by(&calls, UINT64_MAX); }
    [[nodiscard]] std::optional<program_answer> run(const program &calls, uint64_t turns) { return run_by(&calls, turns); }
    program_answer resume_program() { return *run_by(nullptr, UINT64_MAX); }
    [[nodiscard]] std::optional<program_answer> resume_program(uint64_t turns) { return run_by(nullptr, turns); }
    // Locks a resource, and its ancestors before it, and waits for each lock: without end; or at most `within` in all, rounded up to
    // milliseconds, and with 0 or less not at all. NO_MEMORY: wait() goes on, and behind its granted the same call is made again.
    locked lock(const resource &on, mode in) { return lock_for(on, in, PELGAISTI_FOREVER); }
    template <class Rep, class Period> locked lock(const resource &on, mode in, const std::chrono::duration<Rep, Period> &within) {
        return lock_for(on, in, milliseconds_of(within));
    }
    // Waits so for the request by which the session waits: of a call or a program that was answered waiting, or is pending still.
    locked wait() { return wait_for(PELGAISTI_FOREVER); }
    template <class Rep, class Period> locked wait(const std::chrono::duration<Rep, Period> &within) {
        return wait_for(milliseconds_of(within));
    }
    // Waits for the lock table, and looks.
    [[nodiscard]] pelgaisti::view look() { return pelgaisti::view(&handle_); }
    // How many entries of the history the session knows.
    uint64_t seen() { return made_by<uint64_t>([&](auto *n) { return pelgaisti_session_seen(&handle_, n); }); }
    // Takes up to `room` of the oldest entries that are kept, from the place `first` on; nothing if another session has the table.
    [[nodiscard]] std::optional<std::vector<entry>> take_history(size_t room, uint64_t &first) {
        if (room > 256) {  // no more room than for what is kept: takes nothing, which tells where it begins and ends
            size_t none = 0;
            uint64_t begin = 0;
            if (elsewhere(pelgaisti_session_take_history(&handle_, &begin, nullptr, 0, &none))) return std::nullopt;
            room = (std::min)(room, size_t{seen() - begin});
        }
        std::vector<entry> list(room);
        if (elsewhere(pelgaisti_session_take_history(&handle_, &first, list.data(), room, &room))) return std::nullopt;
        list.resize(room);
        return std::optional(std::move(list));
    }
    // From now on a pass in a whole call of this session serves within this bound, as pelgaisti_session_bound_passes says.
    void bound_passes(uint32_t calls, uint32_t locks, uint32_t rounds) {
        check(pelgaisti_session_bound_passes(&handle_, calls, locks, rounds));
    }
    void hear(session &other) { check(pelgaisti_session_hear(&handle_, &other.handle_)); }
    void retire() { check(pelgaisti_session_retire(&handle_)); }
private:
    friend class office;
    session() = default;
    static bool elsewhere(pelgaisti_status status) { return status == PELGAISTI_ELSEWHERE || (check(status), false); }
    template <class Call> static locked waited(Call call) {
        pelgaisti_lock_answer it{};
        const pelgaisti_status status = call(&it);
        if (status < PELGAISTI_VICTIM || status > PELGAISTI_DENIED) check(status);
        return {static_cast<outcome>(status), it.level, static_cast<refusal>(it.why), it.place};
    }
    locked lock_for(const resource &on, mode in, uint64_t timeout_ms) {
        return waited([&](auto *it) { return pelgaisti_session_lock(&handle_, &on, static_cast<uint32_t>(in), timeout_ms, it); });
    }
    locked wait_for(uint64_t timeout_ms) {
        return waited([&](auto *it) { return pelgaisti_session_wait(&handle_, timeout_ms, it); });
    }
    template <class Call> static std::optional<answer> told(Call call) {
        pelgaisti_answer found{};
        const pelgaisti_status status = call(&found);
        if (status == PELGAISTI_NOT_SERVED) return std::nullopt;
        return check(status), answer{found.place, pelgaisti::reply(found.reply)};
    }
    std::optional<program_answer> run_by(const pelgaisti_program *calls, uint64_t turns) {
        pelgaisti_program_answer made{};
        const pelgaisti_status status = pelgaisti_session_run(&handle_, calls, turns, &made);
        if (status == PELGAISTI_NOT_SERVED) return std::nullopt;
        return check(status), program_answer(made);
    }
    pelgaisti_session handle_ = PELGAISTI_EMPTY;
};
static_assert(sizeof(session) == sizeof(pelgaisti_session), "an array of sessions is an array of handles");

// Gives a session back to its office.
class goes_back {
    friend class office;
    class office *to_ = nullptr;
public:
    void operator()(session *one) const noexcept;
};
// A session with one owner, by office::take or office::orphans. When this is destroyed, also by an exception, the session goes back to its
// office with its transaction, its locks, its waiting request and its pending call as they are. It is destroyed before its office.
using owned_session = std::unique_ptr<session, goes_back>;

// An office with all its sessions, which no thread uses any more when it is destroyed. Without a close its lock table is freed then,
// pending calls or not, by passes that still wake: so an exception that leaves the office's scope frees it too, if the threads that use
// its sessions are joined before. All its calls but close() may be made by several threads at once.
class office : pinned {
    enum class place : unsigned char { fresh, owned, back };
    const pelgaisti::waker waker_;
    std::unique_ptr<session[]> sessions_;
    size_t count_, handed_in_ = 0;
    // of each session where it is, which the mutex guards, and the newest transaction that somebody has asked to end, or 0
    std::mutex guard_;
    std::unique_ptr<place[]> places_{new place[count_]()};
    std::unique_ptr<std::atomic<uint64_t>[]> asked_{new std::atomic<uint64_t>[count_]()};
public:
    // Keeps a copy of the waker of the options, for an engine that sleeps by its own means while it waits for a lock. ask_to_end calls it,
    // too.
    explicit office(const options &how)
        : waker_(how.waker ? *how.waker : pelgaisti::waker{nullptr, nullptr}), sessions_(closed(how.sessions)), count_(how.sessions) {
        options own = how;
        if (own.waker) own.waker = &waker_;
        check(pelgaisti_office_open(&sessions_[0].handle_, &own));
    }
    ~office() {
        pelgaisti_session *const first = &sessions_[0].handle_;
        pelgaisti_book made = PELGAISTI_EMPTY;
        pelgaisti_pass pass;
        pelgaisti_program_answer found;
        for (size_t k = 0; k < count_; ++k) {  // a handle that is closed refuses each of these calls
            static_cast<void>(pelgaisti_session_serve(first + k, &pass));
            static_cast<void>(pelgaisti_session_run(first + k, nullptr, 1, &found));
        }
        for (size_t k = 1; k < count_; ++k) static_cast<void>(pelgaisti_session_hand_in(first + k, first));
        if (pelgaisti_office_close(first, &made) == PELGAISTI_OK) static_cast<void>(pelgaisti_book_close(&made));
    }
    session &operator[](size_t index) { return sessions_[index]; }
    size_t size() const { return count_; }
    // The number of one of its sessions, from 1 on.
    uint32_t number(const session &one) const { return static_cast<uint32_t>(&one - &sessions_[0]) + 1; }
    // The session at the index, for one owner; empty if another owner has it. An engine that takes sessions uses none by its index.
    [[nodiscard]] owned_session take(size_t index) {
        if (index >= count_) fail(error(PELGAISTI_NO_SUCH_SESSION));
        const std::lock_guard<std::mutex> lock(guard_);
        return places_[index] == place::owned ? owned_session() : own(index);
    }
    // The sessions that went back to the office and weren't handed out since, by number: each is handed out once, also if several threads
    // ask. An orphan is as it went back:
    // - It may have a pending call or program, which other sessions' passes serve meanwhile, whatever it asks. resume_program() tells the
    //   answer to either; until then it publishes nothing else (PENDING).
    // - It may have a transaction. An abort ends it, also if its request waits or it is a victim; it is refused if there is none.
    // - A request that waits stays in its queue meanwhile. When the wait ends, the office's waker is called for the session, with nobody
    //   there to wake. So the next owner may find a wake-up that isn't its own, and polls.
    // - If it has retired, it publishes no more calls, so its transaction ends only with the office.
    [[nodiscard]] std::vector<owned_session> orphans() {
        std::vector<owned_session> found;
        const std::lock_guard<std::mutex> lock(guard_);
        found.reserve(how_many(place::back));
        for (size_t k = 0; k < count_; ++k)
            if (places_[k] == place::back) found.push_back(own(k));
        return found;
    }
    // Asks that this transaction of session `whose` end: leaves a mark, and calls the waker, if there is one, for the session, on this
    // thread, whether the session waits or not. It ends nothing: only a session's own calls give its locks back. Whoever has the session
    // looks for the mark before each call and when it is woken, undoes its work and aborts, also while its request waits. The mark is the
    // transaction's: who asks too late asks nothing of the session's next one.
    void ask_to_end(uint32_t whose, uint64_t transaction) {
        auto &asked = asked_of(whose);
        uint64_t before = asked.load();
        while (before < transaction && !asked.compare_exchange_weak(before, transaction)) {}  // they have rising numbers
        if (waker_.wake != nullptr) waker_.wake(waker_.engine, whose);
    }
    // Whether somebody has asked that this transaction of session `whose` end. It reads an atomic, and nothing of the lock table.
    [[nodiscard]] bool is_asked_to_end(uint32_t whose, uint64_t transaction) const {
        return transaction != 0 && asked_of(whose).load() == transaction;
    }
    // Closes the office, and gives the lock table with the one history, and with what is open or waits. MISSING: an owner has one of its
    // sessions. PENDING: one of them has a call pending. CLOSED: one of them looks. With these nothing has changed. NO_MEMORY: some
    // sessions may be closed already, and another close goes on.
    std::unique_ptr<book> close() {
        std::unique_ptr<book> made(new book);
        pelgaisti_answer unread;
        if (std::lock_guard<std::mutex> lock(guard_); how_many(place::owned) > 0) fail(error(PELGAISTI_MISSING));
        for (size_t k = 0; k < count_; ++k) {  // to go on without turns changes nothing
            const auto status = pelgaisti_session_perform(&sessions_[k].handle_, nullptr, 0, &unread);
            if (status == PELGAISTI_NOT_SERVED || status == PELGAISTI_PENDING) fail(error(PELGAISTI_PENDING));
            if (status == PELGAISTI_CLOSED && (k == 0 || k > handed_in_)) fail(error(PELGAISTI_CLOSED));
        }
        for (; handed_in_ + 1 < count_; ++handed_in_)
            check(pelgaisti_session_hand_in(&sessions_[handed_in_ + 1].handle_, &sessions_[0].handle_));
        return check(pelgaisti_office_close(&sessions_[0].handle_, &made->handle_)), std::move(made);
    }
private:
    // So many sessions, of which no more are made than an office can have.
    static session *closed(size_t count) {
        check_version();
        if (count < 1 || count > PELGAISTI_MAX_SESSIONS) fail(error(PELGAISTI_NO_SUCH_COUNT));
        return new session[count];
    }
    friend class goes_back;
    owned_session own(size_t index) {
        goes_back by;
        by.to_ = this;
        places_[index] = place::owned;
        return owned_session(&sessions_[index], by);
    }
    size_t how_many(place are) const { return static_cast<size_t>(std::count(&places_[0], &places_[0] + count_, are)); }
    std::atomic<uint64_t> &asked_of(uint32_t whose) const {
        if (whose < 1 || whose > count_) fail(error(PELGAISTI_NO_SUCH_SESSION));
        return asked_[whose - 1];
    }
};
inline void goes_back::operator()(session *one) const noexcept {
    const std::lock_guard<std::mutex> lock(to_->guard_);
    to_->places_[to_->number(*one) - 1] = office::place::back;
}
}  // namespace pelgaisti
#endif
#endif
