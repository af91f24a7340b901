// Tests pelgaisti.hpp: each of its calls on a book and on an office, and the errors that they throw. Prints the line of each check
// that fails, and last 'N passed, M failed'.
#include "pelgaisti.hpp"

#include <array>
#include <atomic>
#include <chrono>
#include <condition_variable>
#include <cstdio>
#include <cstdlib>
#include <future>
#include <memory>
#include <mutex>
#include <new>
#include <sstream>
#include <stdexcept>
#include <string>
#include <thread>
#include <type_traits>
#include <utility>
#if __cplusplus >= 202002L
#include <span>
#endif

using pelgaisti::kind;
using pelgaisti::mode;
using pelgaisti::op;

// The largest allocation of this program since it was forgotten.
static std::size_t largest;
// How many allocations are made before one is refused; none is if this is negative.
static long left = -1;

[[gnu::noinline]] void *operator new(std::size_t size) {
    if (size > largest) largest = size;
    if (left >= 0 && left-- == 0) throw std::bad_alloc();
    if (void *at = std::malloc(size)) return at;
    throw std::bad_alloc();
}
[[gnu::noinline]] void operator delete(void *at) noexcept { std::free(at); }
[[gnu::noinline]] void operator delete(void *at, std::size_t) noexcept { std::free(at); }

static int passed, failed;
#define CHECK(condition) tell(condition, __LINE__, #condition)

static void tell(bool is_so, int line, const char *condition) {
    ++(is_so ? passed : failed);
    if (!is_so) std::printf("%s:%d: %s\n", __FILE__, line, condition);
}

// Whether the call throws an error with this status, by its name.
template <class Call> static bool throws(pelgaisti_status status, Call call) {
    try {
        call();
    } catch (const pelgaisti::error &error) {
        return error.status() == status && std::string(error.what()) == pelgaisti_status_name(status);
    }
    return false;
}

// Only what has numbers of 32 bits one behind another is a path: no conversion of each number goes on unseen.
static_assert(std::is_convertible_v<std::vector<std::uint32_t>, pelgaisti::resource>);
#if __cplusplus >= 202002L
static_assert(std::is_convertible_v<std::span<const std::uint32_t>, pelgaisti::resource>);
static_assert(std::is_convertible_v<std::span<std::uint32_t, 3>, pelgaisti::resource>);
static_assert(!std::is_convertible_v<std::span<const std::uint64_t>, pelgaisti::resource>);
#endif
static_assert(!std::is_convertible_v<std::vector<std::uint64_t>, pelgaisti::resource>);
static_assert(!std::is_convertible_v<std::uint32_t, pelgaisti::resource> && !std::is_convertible_v<std::string, pelgaisti::resource>);

static void books() {
    pelgaisti::book book{3};
    CHECK(book.serve(1, {op::begin}).kind == kind::began && book.serve(2, {op::begin}).value == 2);
    auto reply = book.serve(1, {op::commit});
    CHECK(reply.kind == kind::committed && reply.value == 0);
    reply = book.serve(1, {op::commit});
    CHECK(reply.kind == kind::refused && reply.value == static_cast<std::uint64_t>(pelgaisti::refusal::no_transaction));
    CHECK(book.serve(1, {op::begin}).kind == kind::began);
    using pelgaisti::program, pelgaisti::start;
    CHECK(book.run(1, program::locks(start::nothing, {1, 2, 3}, mode::X)).served == 3);
    CHECK(book.held(1, {1, 2}) == mode::IX && book.held(1, {1, 2, 3}) == mode::X && book.held(2, {1}) == mode::NL);
    const std::vector<std::uint32_t> path{1, 2, 3, 4, 5, 6, 7};
    CHECK(book.held(1, {path.data(), 3}) == mode::X && book.held(1, {path.data(), 2}) == mode::IX);
    CHECK(pelgaisti::resource(path.data(), 5).level == 5 && pelgaisti::resource(path.data(), 5).numbers[4] == 5);
    CHECK(throws(PELGAISTI_NO_SUCH_LEVEL, [&] { book.held(1, {path.data(), 7}); }));
    CHECK(throws(PELGAISTI_NO_SUCH_LEVEL, [&] { book.held(1, {path.data(), 0}); }));
    const std::uint32_t array[] = {1, 2, 3};
    CHECK(book.held(1, array) == mode::X && book.held(1, std::array<std::uint32_t, 2>{1, 2}) == mode::IX);
    CHECK(throws(PELGAISTI_NO_SUCH_LEVEL, [&] { book.held(1, path); }));
    CHECK(throws(PELGAISTI_NO_SUCH_LEVEL, [&] { book.held(1, std::vector<std::uint32_t>{}); }));
    CHECK(throws(PELGAISTI_NO_SUCH_LEVEL, [&] { static_cast<void>(book.serve(1, {op::lock, mode::S, path})); }));
    const auto waiting = book.run(2, program::locks(start::nothing, {1, 2}, mode::S));
    CHECK(waiting.served == 2 && waiting.stopped() && waiting.stopped_at(kind::waiting) && book.ended().empty());
    CHECK(book.blockers(2) == std::vector<std::uint32_t>{1} && book.blockers(3).empty());
    const auto holders = book.holders({1});
    CHECK(holders.size() == 2 && holders[0].session == 1 && holders[0].mode == PELGAISTI_IX && holders[1].mode == PELGAISTI_IS);
    CHECK(book.locks_held(1) == 3 && book.locks_held(2) == 1 && book.locks_held(3) == 0);
    const auto page = book.locks_of(1, 2), behind = book.locks_of(1, 2, page.back().resource);
    CHECK(page.size() == 2 && page[0].resource.level == 1 && page[1].resource.level == 2);
    CHECK(behind.size() == 1 && behind[0].mode == PELGAISTI_X && book.locks_of(1, 2, behind[0].resource).empty());
    CHECK(book.locks_of(1, 9, {1, 1}).size() == 2 && book.locks_of(1, 9, {1, 2}).size() == 1 && book.locks_of(2, 0).empty());
    CHECK(throws(PELGAISTI_NO_SUCH_SESSION, [&] { book.locks_of(4, 1); }));
    CHECK(book.request(2).mode == PELGAISTI_S && book.request(1).kind == 0 && book.transaction(1).number == 3);
    const auto dump = book.dump();
    CHECK(dump.place == book.length() && dump.rows.size() == 7 && dump.rows[0].kind == PELGAISTI_TRANSACTION_ROW);
    CHECK(dump.rows[2].session == 1 && dump.rows[2].mode == PELGAISTI_IX && dump.rows[5].kind == PELGAISTI_FRESH && dump.rows[5].resource.level == 2);
    CHECK(dump.text().find("transaction,1,3,,,,\ntransaction,2,") == 0 && dump.text().find("\nwaits,2,,,,,1\n") != std::string::npos);
    const auto counted = book.counts();
    CHECK(counted.of(op::begin) == 3 && counted.of(op::lock) == 5 && counted.of(op::commit) == 2 && counted.of(op::poll) == 0);
    CHECK(counted.requests == 5 && counted.granted_at_once == 4 && counted.waits_begun == 1 && counted.waiting == 1);
    CHECK(counted.of(pelgaisti::refusal::no_transaction) == 1 && counted.of(pelgaisti::refusal::not_waiting) == 0);
    CHECK(book.gauges().transactions == 2 && book.gauges().waiting == 1 && book.gauges().longest_queue == 1);
    CHECK(book.passes().made == 0);
    std::vector<pelgaisti_entry> batch(2);
    batch[0].session = 1;
    batch[0].call = pelgaisti::call{op::abort};
    batch[1].session = 2;
    batch[1].call = pelgaisti::call{op::poll};
    CHECK(book.serve_batch(batch) == 2 && batch[0].reply.kind == PELGAISTI_ABORTED && batch[1].reply.kind == PELGAISTI_CLEAR);
    CHECK(book.ended() == std::vector<std::uint32_t>{2});
    CHECK(book.length() == 12 && book.first_kept() == 0 && book.history(10, 9).size() == 2 && book.history(99, SIZE_MAX).empty());
    CHECK(book.history(0, SIZE_MAX).size() == 12 && book.history(0, SIZE_MAX)[4].call.op == PELGAISTI_BEGIN);
    CHECK(book.take_history(2).size() == 2 && book.first_kept() == 2 && book.take_history(1)[0].reply.kind == PELGAISTI_COMMITTED);
    CHECK(throws(PELGAISTI_LET_GO, [&] { book.history(2, 1); }));
    book.keep_at_most(1);
    CHECK(book.first_kept() == 11 && book.take_history(SIZE_MAX).size() == 1 && book.take_history(SIZE_MAX).empty());
    CHECK(throws(PELGAISTI_NO_SUCH_SESSION, [&] { static_cast<void>(book.serve(4, {op::begin})); }));
    CHECK(throws(PELGAISTI_NO_SUCH_LEVEL, [&] { static_cast<void>(book.serve(1, {op::lock, mode::S, {1, 2, 3, 4, 5, 6}})); }));
    CHECK(throws(PELGAISTI_NO_SUCH_COUNT, [] { pelgaisti::book none{0}; }));
}

// Whether the call wasn't refused.
static bool is_made(const pelgaisti::answer &it) { return it.reply.kind != kind::refused; }

static pelgaisti::options how(std::size_t sessions, std::uint64_t keep, const pelgaisti::waker *waker = nullptr, std::uint64_t deadlocks = 0) {
    pelgaisti::options it{sessions};
    it.keep = keep, it.waker = waker, it.deadlocks = deadlocks;
    return it;
}

// A waker that notes whom it wakes.
static pelgaisti::waker noting(std::vector<std::uint32_t> &woken) {
    return {[](void *engine, std::uint32_t session) noexcept { static_cast<std::vector<std::uint32_t> *>(engine)->push_back(session); }, &woken};
}

// With a seed a lock table replies what it replies without one. A resource that nobody holds leaves an idle cell until the table shrinks.
static void seeds_and_memory() {
    pelgaisti::options seed{2};
    seed.seed = 7;
    pelgaisti::book book{2}, seeded{seed};
    for (auto *one : {&book, &seeded}) {
        one->reserve(100, 100);
        CHECK(one->gauges().idle_cells == 0 && one->serve(1, {op::begin}).kind == kind::began);
        CHECK(one->serve(1, {op::lock, mode::X, {7}}).kind == kind::granted && one->serve(1, {op::lock, mode::S, {8}}).kind == kind::granted);
        CHECK(one->serve(1, {op::commit}).value == 2 && one->gauges().idle_cells == 2);
        one->shrink();
        CHECK(one->gauges().idle_cells == 0 && one->length() == 4 && one->history(0, 9).size() == 4);
        CHECK(throws(PELGAISTI_NO_MEMORY, [&] { one->reserve(SIZE_MAX, 0); }) && throws(PELGAISTI_NO_MEMORY, [&] { one->reserve(0, SIZE_MAX); }));
    }
    std::vector<std::uint32_t> woken;
    const auto notes = noting(woken);
    seed.waker = &notes, seed.keep = 3;
    pelgaisti::office office{seed};
    office[1].look().reserve(100, 100);
    CHECK(is_made(office[0].perform({op::begin})) && is_made(office[1].perform({op::begin})));
    CHECK(is_made(office[0].perform({op::lock, mode::X, {7}})) && office[1].perform({op::lock, mode::X, {7}}).reply.kind == kind::waiting);
    CHECK(is_made(office[0].perform({op::commit})) && woken == std::vector<std::uint32_t>{2} && is_made(office[1].perform({op::commit})));
    {
        auto view = office[0].look();
        CHECK(view.gauges().idle_cells == 1 && view.length() == 6);
        view.shrink();
        CHECK(view.gauges().idle_cells == 0 && throws(PELGAISTI_NO_MEMORY, [&] { view.reserve(SIZE_MAX, 0); }));
    }
    CHECK(office.close()->first_kept() == 3);
    seed.pass_calls = 0;
    CHECK(throws(PELGAISTI_NO_SUCH_COUNT, [&] { pelgaisti::office none(seed); }));
}

// The first call of session 1's path makes 3 a victim, since 1 would wait for 3, which waits for 2, which waits for 1. The second call
// ends nobody's wait where it is granted; else it waits for 2, which becomes a victim, too.
static void paths_tell() {
    for (const bool waits : {false, true}) {
        pelgaisti::book book{3};
        for (std::uint32_t session = 1; session <= 3; ++session) CHECK(book.serve(session, {op::begin}).kind == kind::began);
        CHECK(book.serve(1, {op::lock, mode::X, {8}}).kind == kind::granted);
        CHECK(book.serve(2, {op::lock, mode::IX, {7}}).kind == kind::granted);
        CHECK(book.serve(2, {op::lock, mode::X, {7, 1}}).kind == kind::granted);
        CHECK(book.serve(2, {op::lock, mode::S, {8}}).kind == kind::waiting);
        CHECK(book.serve(3, {op::lock, mode::X, {7}}).kind == kind::waiting);
        const auto answer = book.run(1, pelgaisti::program::locks(pelgaisti::start::nothing, {7, waits ? 1u : 2u}, mode::S));
        CHECK(answer.served == 2 && answer.stopped_at(kind::waiting) == waits && answer.values[1] == (waits ? PELGAISTI_NL : PELGAISTI_S));
        CHECK(book.ended() == (waits ? std::vector<std::uint32_t>{3, 2} : std::vector<std::uint32_t>{3}));
        CHECK(book.serve(3, {op::poll}).kind == kind::deadlock && book.ended().empty());
    }
}

// A program of a commit, a begin and a path; one that stops where it waits; and single calls.
static void programs() {
    using pelgaisti::program, pelgaisti::start;
    pelgaisti::book book{2};
    const auto path = program::locks(start::begins, {7, 2, 40}, mode::X);
    auto answer = book.run(1, path);
    CHECK(answer.place == 0 && answer.served == 4 && answer.values[0] == 1 && !answer.stopped() && !answer.starved);
    const auto replies = answer.replies(path);
    CHECK(replies.size() == 4 && replies[0].kind == kind::began && replies[1].value == PELGAISTI_IX && replies[3].value == PELGAISTI_X);
    answer = book.run(2, program::locks(start::begins, {7, 2}, mode::S));
    CHECK(answer.place == 4 && answer.served == 3 && answer.stopped_at(kind::waiting) && book.ended().empty());
    CHECK(throws(PELGAISTI_NO_SUCH_OP, [&] { static_cast<void>(book.run(1, program(start::nothing))); }));
    answer = book.run(1, program::locks(start::commits_and_begins, {8, 1}, mode::X, 0));
    CHECK(answer.served == 4 && answer.values[0] == 3 && answer.values[1] == 3 && book.ended() == std::vector<std::uint32_t>{2});
    CHECK(book.run(1, program::locks(start::nothing, {8, 2}, mode::X, 1)).served == 1);
    const program poll(start::nothing, {op::poll}), restart(start::restarts, {op::lock, mode::S, {9}});
    CHECK(book.run(2, poll).replies(poll).at(0).kind == kind::clear);
    answer = book.run(2, restart);
    CHECK(answer.replies(restart).at(0).kind == kind::restarted && answer.values[0] == 2 && answer.replies(restart).at(1).kind == kind::granted);
    answer = book.run(2, program(start::aborts, {op::try_lock, mode::S, {8}}));
    CHECK(answer.stopped_at(kind::refused) && answer.why() == pelgaisti::refusal::no_transaction);
    CHECK(throws(PELGAISTI_NOT_ON_PATH, [&] { static_cast<void>(book.run(1, program::locks(start::begins, {8}, mode::X, 1))); }));
    CHECK(throws(PELGAISTI_NO_SUCH_OP, [&] { static_cast<void>(book.run(1, program(start::commits, {op::begin}))); }));
    CHECK(throws(PELGAISTI_NO_SUCH_LEVEL, [&] { static_cast<void>(book.run(1, program::locks(start::begins, {}, mode::X))); }));
    CHECK(throws(PELGAISTI_NO_SUCH_SESSION, [&] { static_cast<void>(book.run(3, program(start::begins))); }));
}

// Programs of sessions: at once, published and served by another session, and pending; only a program's call finishes one of several.
static void session_programs() {
    using pelgaisti::program, pelgaisti::start;
    pelgaisti::office office{3};
    auto answer = office[0].run(program::locks(start::begins, {7, 2}, mode::X));
    CHECK(answer.place == 0 && answer.served == 3 && !answer.stopped() && answer.values[2] == PELGAISTI_X);
    answer = office[1].run(program::locks(start::begins, {7, 2, 1}, mode::X));
    CHECK(answer.place == 3 && answer.served == 3 && answer.stopped_at(kind::waiting));
    CHECK(!office[0].run(program::locks(start::commits_and_begins, {8}, mode::S), 0));
    CHECK(throws(PELGAISTI_PENDING, [&] { static_cast<void>(office[0].resume()); }));
    CHECK(throws(PELGAISTI_PENDING, [&] { static_cast<void>(office[0].collect()); }));
    CHECK(throws(PELGAISTI_PENDING, [&] { static_cast<void>(office[0].run(program(start::commits))); }));
    CHECK(throws(PELGAISTI_PENDING, [&] { office.close(); }));
    CHECK(!office[0].resume_program(0) && office[2].serve()->served == 1);
    answer = office[0].resume_program();
    CHECK(answer.place == 6 && answer.served == 3 && answer.values[0] == 2 && answer.values[2] == PELGAISTI_S);
    CHECK(!office[1].run(program(start::nothing, {op::poll})).stopped());
    office[1].publish({op::poll});
    CHECK(office[1].resume_program().served == 1 && throws(PELGAISTI_NOTHING_PENDING, [&] { static_cast<void>(office[1].resume_program()); }));
    CHECK(throws(PELGAISTI_NO_SUCH_OP, [&] { static_cast<void>(office[1].run(program(start::nothing))); }));
    CHECK(throws(PELGAISTI_NOT_ON_PATH, [&] { static_cast<void>(office[1].run(program::locks(start::begins, {8}, mode::X, 1))); }));
    CHECK(office.close()->length() == 11);
}

static void tries() {
    const auto refused = [](const pelgaisti::reply &reply, pelgaisti::refusal why) {
        return reply.kind == kind::refused && reply.value == static_cast<std::uint64_t>(why);
    };
    pelgaisti::book book{3};
    CHECK(refused(book.serve(1, {op::try_lock, mode::S, {1}}), pelgaisti::refusal::no_transaction));
    for (std::uint32_t session = 1; session <= 3; ++session) CHECK(book.serve(session, {op::begin}).kind == kind::began);
    CHECK(book.serve(1, {op::try_lock, mode::S, {1}}).kind == kind::granted);
    CHECK(refused(book.serve(2, {op::try_lock, mode::X, {1}}), pelgaisti::refusal::would_wait));
    CHECK(refused(book.serve(2, {op::withdraw}), pelgaisti::refusal::not_waiting));
    CHECK(book.serve(2, {op::lock, mode::X, {1}}).kind == kind::waiting);
    CHECK(book.serve(3, {op::lock, mode::S, {1}}).kind == kind::waiting);
    CHECK(book.serve(2, {op::withdraw}).kind == kind::withdrawn && book.ended() == std::vector<std::uint32_t>{3});
    CHECK(book.serve(3, {op::poll}).kind == kind::clear && book.held(3, {1}) == mode::S && book.request(2).kind == 0);
    // 3 and 1 wait for one another, and 3 is the younger
    CHECK(book.serve(3, {op::lock, mode::X, {1}}).kind == kind::waiting);
    CHECK(book.serve(1, {op::lock, mode::X, {1}}).kind == kind::waiting);
    CHECK(refused(book.serve(3, {op::withdraw}), pelgaisti::refusal::is_doomed));
    CHECK(refused(book.serve(3, {op::try_lock, mode::S, {2}}), pelgaisti::refusal::is_doomed));
    CHECK(book.history(4, 1)[0].call.op == PELGAISTI_TRY && book.history(9, 1)[0].reply.kind == PELGAISTI_WITHDRAWN);
}

static void offices() {
    pelgaisti::office office{2};
    CHECK(office[0].perform({op::begin}).place == 0);
    CHECK(!office[1].perform({op::begin}, 0) && throws(PELGAISTI_PENDING, [&] { static_cast<void>(office[1].perform({op::begin})); }));
    // a close that fails has closed no session
    CHECK(throws(PELGAISTI_PENDING, [&] { office.close(); }) && office[0].perform({op::poll}).place == 2);
    CHECK(office[1].resume().reply.value == 2);
    CHECK(throws(PELGAISTI_NOTHING_PENDING, [&] { static_cast<void>(office[1].resume()); }));
    office[0].publish({op::lock, mode::S, {7}});
    CHECK(!office[0].collect() && office[1].serve()->served == 1 && office[0].collect()->reply.kind == kind::granted);
    // a call that is left without turns; a lock takes no pending call for its own
    CHECK(!office[1].perform({op::lock, mode::IX, {7}}, 0));
    CHECK(throws(PELGAISTI_PENDING, [&] { static_cast<void>(office[1].lock({9}, mode::X)); }));
    CHECK(office[0].look().held(2, {9}) == mode::NL);
    CHECK(office[1].resume().reply.kind == kind::waiting);
    CHECK(office[0].perform({op::commit}).reply.kind == kind::committed);
    CHECK(office[1].wait().place == 6);
    {
        auto view = office[0].look();
        CHECK(view.held(2, {7}) == mode::IX && view.length() == 7 && view.first_kept() == 0 && view.history(6, 9).size() == 1);
        CHECK(view.transaction(2).number == 2 && view.request(2).kind == 0 && view.holders({7}).size() == 1 && view.blockers(2).empty());
        CHECK(view.locks_held(2) == 1 && view.locks_held(1) == 0 && view.deadlocks().empty());
        CHECK(view.dump().place == 7 && view.dump().text() == "transaction,2,2,,,,\nheld,2,2,,7,IX,\n");
        const auto counted = view.counts();
        CHECK(counted.of(op::begin) == 2 && counted.of(op::lock) == 2 && counted.granted_at_once == 1 && counted.waits_granted == 1);
        CHECK(counted.of(pelgaisti::refusal::not_held) == 0 && view.gauges().transactions == 1 && view.gauges().locks == 1);
        CHECK(view.passes().made > 0 && view.passes().starved == 0);
        CHECK(view.locks_of(2, 8).at(0).mode == PELGAISTI_IX && view.locks_of(2, 8, {7}).empty());
        CHECK(view.locks_of(2, 8, view.locks_of(2, 1).at(0).resource).empty());
        CHECK(throws(PELGAISTI_NO_SUCH_SESSION, [&] { view.blockers(3); }));
        // the session is closed meanwhile, and the office isn't
        CHECK(throws(PELGAISTI_CLOSED, [&] { office[0].publish({op::poll}); }) && throws(PELGAISTI_CLOSED, [&] { office.close(); }));
        CHECK(!office[1].serve() && !office[1].perform({op::poll}, 9));
    }
    CHECK(office[0].seen() == 7 && office[1].resume().place == 7);
    office[0].bound_passes(16, 1000, 1);
    CHECK(throws(PELGAISTI_NO_SUCH_COUNT, [&] { office[0].bound_passes(16, 0, 1); }));
    CHECK(office[1].lock({7, 8}, mode::X).level == 2);
    CHECK(throws(PELGAISTI_NO_SUCH_LEVEL, [&] { static_cast<void>(office[1].lock(std::vector<std::uint32_t>{}, mode::X)); }));
    office[0].hear(office[1]);
    office[0].retire();
    CHECK(throws(PELGAISTI_RETIRED, [&] { office[0].publish({op::begin}); }));
    auto book = office.close();
    CHECK(book->held(2, {7, 8}) == mode::X && book->length() == 10 && book->first_kept() == 0);
    pelgaisti::office keeping{how(1, 1)};
    CHECK(is_made(keeping[0].perform({op::begin})) && is_made(keeping[0].perform({op::commit})));
    CHECK(keeping.close()->first_kept() == 1);
    pelgaisti::office pieces{2};
    std::uint64_t first = 9;
    CHECK(is_made(pieces[0].perform({op::begin})) && is_made(pieces[1].perform({op::begin})));
    auto piece = pieces[1].take_history(1, first);
    CHECK(piece && piece->size() == 1 && first == 0 && piece->front().session == 1);
    piece = pieces[0].take_history(9, first);
    CHECK(piece && piece->size() == 1 && first == 1 && piece->front().session == 2);
    CHECK(pieces.close()->first_kept() == 2);
}

// The header's example: transaction 1 of session 1 holds 1 in X, transaction 2 of session 2 holds 2 in S, and each asks for the other's.
static const char cross_text[] = "deadlock at place 5: session 2 closed a cycle, session 2 is its victim\n"
                                 "  session 2, transaction 2, waits for 1 in S, which session 1 holds in X\n"
                                 "  session 1, transaction 1, waits for 2 in X, which session 2 holds in S\n";

static void want_cross(const std::vector<pelgaisti::deadlock> &told) {
    CHECK(told.size() == 1 && told[0].place == 5 && told[0].session == 2 && told[0].cycle.size() == 2);
    const pelgaisti::member &victim = told[0].cycle[0], &next = told[0].cycle[1];
    CHECK(victim.request.session == 2 && victim.request.transaction == 2 && victim.request.mode == PELGAISTI_S && victim.held == PELGAISTI_X);
    CHECK(next.request.session == 1 && next.request.transaction == 1 && next.request.mode == PELGAISTI_X && next.held == PELGAISTI_S);
    std::ostringstream text;
    text << told[0] << told[0].cycle.size();
    CHECK(to_string(told[0]) == cross_text && text.str() == std::string(cross_text) + "2");
}

// Books that keep none, few and many, of which what is told outgrows the room of the first question. Each of 20 rounds has the eight calls
// of the example and its end.
static void books_tell_deadlocks() {
    for (const std::size_t most : {0u, 1u, 9u, 30u}) {
        pelgaisti::book book{how(2, UINT64_MAX, nullptr, most)};
        CHECK(book.deadlocks().empty());
        for (std::uint32_t round = 0; round < 20; ++round) {
            for (std::uint32_t k = 1; k <= 2; ++k) {
                CHECK(book.serve(k, {op::begin}).value == 2 * round + k);
                CHECK(book.serve(k, {op::lock, k == 1 ? mode::X : mode::S, {k}}).kind == kind::granted);
            }
            CHECK(book.serve(1, {op::lock, mode::X, {2}}).kind == kind::waiting && book.serve(2, {op::lock, mode::S, {1}}).kind == kind::deadlock);
            if (round == 0 && most > 0) want_cross(book.deadlocks());
            CHECK(book.serve(2, {op::abort}).value == 1 && book.serve(1, {op::commit}).value == 2);
        }
        const auto told = book.deadlocks();
        const std::size_t kept = std::min(most, std::size_t{20});
        CHECK(told.size() == kept);
        for (const std::size_t asked : {0u, 1u, 12u, 40u}) {  // the newest ones, in the same order
            const auto newest = book.deadlocks(asked);
            CHECK(newest.size() == std::min(asked, kept));
            for (std::size_t k = 0; k < newest.size(); ++k) CHECK(newest[k].place == told[kept - newest.size() + k].place && newest[k].cycle.size() == 2);
        }
        for (std::size_t k = 0; k < told.size(); ++k) {
            const std::uint64_t round = 20 - kept + k;
            CHECK(told[k].place == 8 * round + 5 && told[k].session == 2 && told[k].cycle.size() == 2);
            CHECK(told[k].cycle[0].request.transaction == 2 * round + 2 && told[k].cycle[1].request.transaction == 2 * round + 1);
            CHECK(told[k].cycle[0].request.resource.numbers[0] == 1 && told[k].cycle[1].request.resource.numbers[0] == 2);
        }
    }
    CHECK(throws(PELGAISTI_NO_MEMORY, [] { pelgaisti::book none(how(2, UINT64_MAX, nullptr, SIZE_MAX)); }));
    // one cycle has more members than there is room for at first: each session waits for the next one
    constexpr std::uint32_t many = 40;
    pelgaisti::book ring{how(many, UINT64_MAX, nullptr, 1)};
    for (std::uint32_t k = 1; k <= many; ++k)
        CHECK(ring.serve(k, {op::begin}).value == k && ring.serve(k, {op::lock, mode::X, {k}}).kind == kind::granted);
    for (std::uint32_t k = 1; k <= many; ++k)
        CHECK(ring.serve(k, {op::lock, mode::X, {k % many + 1}}).kind == (k == many ? kind::deadlock : kind::waiting));
    const auto told = ring.deadlocks();
    CHECK(told.size() == 1 && told[0].place == 3 * many - 1 && told[0].cycle.size() == many);
    for (std::uint32_t k = 0; k < many; ++k)  // the victim is the last session, which waits for the first
        CHECK(told[0].cycle[k].request.session == (k == 0 ? many : k) && told[0].cycle[k].request.resource.numbers[0] == k + 1);
}

// An office tells of deadlocks if it was told to keep some when it was opened, with a waker or without one.
static void offices_tell_deadlocks() {
    std::vector<std::uint32_t> woken;
    const auto notes = noting(woken);
    pelgaisti::office silent{2}, telling{how(2, UINT64_MAX, nullptr, 4)}, waking{how(2, 3, &notes, 4)};
    for (auto *office : {&silent, &telling, &waking}) {
        for (std::uint32_t k = 0; k < 2; ++k) CHECK((*office)[k].perform({op::begin}).reply.value == k + 1);
        CHECK(is_made((*office)[0].perform({op::lock, mode::X, {1}})) && is_made((*office)[1].perform({op::lock, mode::S, {2}})));
        CHECK((*office)[0].look().deadlocks().empty());
        CHECK((*office)[0].perform({op::lock, mode::X, {2}}).reply.kind == kind::waiting);
        CHECK((*office)[1].perform({op::lock, mode::S, {1}}).reply.kind == kind::deadlock);
        const auto told = (*office)[0].look().deadlocks();
        if (office != &silent) want_cross(told);
        else CHECK(told.empty());
        CHECK((*office)[1].perform({op::abort}).reply.value == 1 && (*office)[0].perform({op::commit}).reply.value == 2);
    }
    CHECK(woken == std::vector<std::uint32_t>{1});
    auto book = waking.close();
    CHECK(book->first_kept() == 5 && silent.close()->deadlocks().empty());
    want_cross(book->deadlocks());
    CHECK(throws(PELGAISTI_NO_MEMORY, [] { pelgaisti::office none(how(2, UINT64_MAX, nullptr, SIZE_MAX)); }));
}

// A function that may throw is no waker: the others that a pass has told would sleep on.
using may_throw = void (*)(void *, std::uint32_t);
using throws_nothing = void (*)(void *, std::uint32_t) noexcept;
static_assert(std::is_same_v<decltype(pelgaisti::waker::wake), throws_nothing>);
static_assert(!std::is_convertible_v<may_throw, decltype(pelgaisti::waker::wake)>);
template <class Wake, class = void> struct is_waker : std::false_type {};
template <class Wake> struct is_waker<Wake, std::void_t<decltype(pelgaisti::waker{std::declval<Wake>(), nullptr})>> : std::true_type {};
static_assert(is_waker<throws_nothing>::value && !is_waker<may_throw>::value);

// Each call that makes a pass wakes whom it has ended a wait of, by the waker of which the office keeps a copy.
static void wakers() {
    std::vector<std::uint32_t> woken;
    const pelgaisti::waker nobody{nullptr, nullptr};
    CHECK(throws(PELGAISTI_NULL, [&] { pelgaisti::office office(how(2, 1, &nobody)); }));
    for (int way = 0; way < 5; ++way) {
        auto kept = std::make_unique<pelgaisti::waker>(noting(woken));
        pelgaisti::office office{how(3, 1, kept.get())};
        kept.reset();
        for (std::uint32_t k = 0; k < 2; ++k) {
            CHECK(office[k].perform({op::begin}).reply.kind == kind::began);
            CHECK(office[k].perform({op::lock, mode::X, {k + 1}}).reply.kind == kind::granted);
        }
        CHECK(office[1].perform({op::lock, mode::X, {1}}).reply.kind == kind::waiting && woken.empty());
        if (way == 0) CHECK(office[0].perform({op::commit}).reply.kind == kind::committed);
        if (way == 1 || way == 2) office[0].publish({op::commit});
        if (way == 1) CHECK(office[0].resume().reply.kind == kind::committed);
        if (way == 2) CHECK(office[2].serve()->served == 1);
        if (way == 3) CHECK(!office[0].lock({2}, mode::S, std::chrono::milliseconds(1)));  // 2 is the victim
        if (way == 4) office[0].publish({op::commit});  // served when the office is destroyed
        CHECK(woken == (way == 4 ? std::vector<std::uint32_t>{} : std::vector<std::uint32_t>{2}));
        if (way < 4) woken.clear();
        if (way == 0) CHECK(office.close()->first_kept() == 5);
    }
    CHECK(woken == std::vector<std::uint32_t>{2});
}

// Each outcome of a lock that is waited for, of times in several units.
static void locks_end() {
    using namespace std::chrono_literals;
    using pelgaisti::outcome;
    pelgaisti::office office{3};
    CHECK(office[0].lock({1, 2}, mode::X).outcome == outcome::denied);
    CHECK(office[0].lock({1, 2}, mode::X, 1s).why == pelgaisti::refusal::no_transaction);
    for (std::uint32_t k = 0; k < 3; ++k) CHECK(office[k].perform({op::begin}).reply.kind == kind::began);
    const auto granted = office[0].lock({1, 2}, mode::X, std::chrono::hours::max());
    CHECK(granted && granted.outcome == outcome::granted && granted.level == 2 && granted.place == 6);
    for (const auto &late : {office[1].lock({1, 2}, mode::S, 1us), office[1].lock({1, 2}, mode::S, 0s), office[1].lock({1, 2}, mode::S, -1h)})
        CHECK(!late && late.outcome == outcome::timed_out && late.level == 1);
    // the first of the three has waited, and taken its request back; the others have tried
    const auto counted = office[0].look().counts();
    CHECK(counted.of(op::withdraw) == 1 && counted.of(op::try_lock) == 4);
    CHECK(office[1].lock({3}, mode::X) && office[0].perform({op::lock, mode::S, {3}}).reply.kind == kind::waiting);
    CHECK(office[1].lock({1, 2}, mode::S, 1.5min).outcome == outcome::victim);
    CHECK(office[0].wait(0.5ms).outcome == outcome::timed_out && office[0].perform({op::lock, mode::S, {3}}).reply.kind == kind::waiting);
    CHECK(office[1].perform({op::restart}).reply.kind == kind::restarted && office[0].wait(1h).outcome == outcome::granted);
}

// A task that throws leaves its session in the office. Whoever has seen its end goes on with the session: finishes its pending call,
// ends its transaction, and uses it again.
static void a_task_throws() {
    pelgaisti::office office{2};
    auto task = std::async(std::launch::async, [&] {
        CHECK(is_made(office[1].perform({op::begin})) && is_made(office[1].perform({op::lock, mode::X, {7}})));
        office[1].publish({op::poll});
        throw std::runtime_error("lost");
    });
    std::string what;
    try {
        task.get();
    } catch (const std::runtime_error &error) {
        what = error.what();
    }
    CHECK(what == "lost" && office[0].perform({op::begin}).reply.value == 2);
    CHECK(office[0].perform({op::lock, mode::S, {7}}).reply.kind == kind::waiting);
    CHECK(throws(PELGAISTI_PENDING, [&] { office[1].publish({op::abort}); }) && throws(PELGAISTI_PENDING, [&] { office.close(); }));
    CHECK(office[1].resume().reply.kind == kind::clear);
    const auto ended = office[1].perform({op::abort});
    CHECK(ended.reply.kind == kind::aborted && ended.reply.value == 1);
    CHECK(office[0].perform({op::poll}).reply.kind == kind::clear);
    CHECK(office[1].perform({op::begin}).reply.value == 3 && office.close()->length() == 8);
}

static std::vector<std::uint32_t> numbers(const pelgaisti::office &office, const std::vector<pelgaisti::owned_session> &list) {
    std::vector<std::uint32_t> found;
    for (const auto &it : list) found.push_back(office.number(*it));
    return found;
}

static kind reply(pelgaisti::session &session, const pelgaisti::call &call) { return session.perform(call).reply.kind; }

// A session has one owner, and goes back to its office with its owner's end: at the end of a scope, by an exception, in another thread.
// It is handed out once then, with what it had.
static void sessions_have_owners() {
    pelgaisti::office office{4};
    auto one = office.take(0), two = office.take(1);
    CHECK(one && two && office.number(*two) == 2 && !office.take(0) && office.orphans().empty());
    CHECK(throws(PELGAISTI_NO_SUCH_SESSION, [&] { static_cast<void>(office.take(4)); }));
    CHECK(throws(PELGAISTI_MISSING, [&] { office.close(); }) && reply(*one, {op::begin}) == kind::began);
    std::string what;
    auto task = std::async(std::launch::async, [third = office.take(2)] {
        CHECK(reply(*third, {op::begin}) == kind::began && reply(*third, {op::lock, mode::X, {7}}) == kind::granted);
        throw std::runtime_error("lost");
    });
    try {
        task.get();
    } catch (const std::runtime_error &error) {
        what = error.what();
    }
    task = {};  // with what the task has
    CHECK(what == "lost" && reply(*one, {op::lock, mode::S, {7}}) == kind::waiting);
    std::thread([fourth = office.take(3)] {
        CHECK(reply(*fourth, {op::begin}) == kind::began);
        fourth->publish({op::commit});
    }).join();
    auto orphans = office.orphans();
    CHECK(numbers(office, orphans) == (std::vector<std::uint32_t>{3, 4}) && office.orphans().empty() && !office.take(2));
    CHECK(throws(PELGAISTI_NOTHING_PENDING, [&] { static_cast<void>(orphans[0]->resume()); }));
    CHECK(orphans[0]->perform({op::abort}).reply.value == 1 && reply(*one, {op::poll}) == kind::clear);
    CHECK(throws(PELGAISTI_PENDING, [&] { static_cast<void>(orphans[1]->perform({op::abort})); }));
    CHECK(orphans[1]->resume().reply.kind == kind::committed && reply(*orphans[1], {op::abort}) == kind::refused);

    // given back, it is handed out again, by its index too, and its number is used again
    orphans.clear();
    auto again = office.take(3);
    CHECK(numbers(office, office.orphans()) == std::vector<std::uint32_t>{3});
    CHECK(numbers(office, office.orphans()) == std::vector<std::uint32_t>{3});
    CHECK(again && again->perform({op::begin}).reply.value == 4 && reply(*again, {op::commit}) == kind::committed);
    pelgaisti::owned_session moved = std::move(again);
    CHECK(!again && throws(PELGAISTI_MISSING, [&] { office.close(); }));
    again.reset(), moved.reset(), one.reset(), two.reset();
    // what nobody owns is closed with the office, with the locks that it has
    CHECK(office.close()->held(1, {7}) == mode::S && throws(PELGAISTI_CLOSED, [&] { office.close(); }));
}

// Sessions that go back while they wait: one is granted meanwhile, one becomes a victim, of one the request goes with the abort. One that
// has retired keeps its locks until the office is closed.
static void orphans_wait() {
    pelgaisti::office office{4};
    auto one = office.take(0);
    CHECK(reply(*one, {op::begin}) == kind::began && reply(*one, {op::lock, mode::X, {7}}) == kind::granted);
    {
        auto two = office.take(1), three = office.take(2), four = office.take(3);
        CHECK(reply(*two, {op::begin}) == kind::began && reply(*two, {op::lock, mode::X, {7}}) == kind::waiting);
        CHECK(reply(*three, {op::begin}) == kind::began && reply(*three, {op::lock, mode::X, {8}}) == kind::granted);
        three->publish({op::lock, mode::S, {7}});
        CHECK(reply(*four, {op::begin}) == kind::began && reply(*four, {op::lock, mode::X, {9}}) == kind::granted);
        four->retire();
    }
    // the third waits behind the second, and is the youngest on a cycle through the first
    CHECK(reply(*one, {op::lock, mode::S, {8}}) == kind::waiting);
    auto orphans = office.orphans();
    CHECK(orphans.size() == 3 && orphans[1]->resume().reply.kind == kind::waiting && reply(*orphans[1], {op::poll}) == kind::deadlock);
    CHECK(orphans[1]->perform({op::abort}).reply.value == 1 && reply(*one, {op::poll}) == kind::clear);
    CHECK(throws(PELGAISTI_RETIRED, [&] { static_cast<void>(orphans[2]->perform({op::abort})); }));
    CHECK(one->look().request(2).kind == PELGAISTI_FRESH);
    orphans.clear();
    CHECK(reply(*one, {op::commit}) == kind::committed && one->look().held(2, {7}) == mode::X);
    orphans = office.orphans();
    CHECK(orphans[0]->perform({op::abort}).reply.value == 1);
    CHECK(reply(*one, {op::begin}) == kind::began && reply(*one, {op::lock, mode::X, {7}}) == kind::granted);
    CHECK(reply(*orphans[0], {op::begin}) == kind::began && reply(*orphans[0], {op::lock, mode::S, {7}}) == kind::waiting);
    orphans.clear();
    auto two = office.take(1);
    const auto ended = two->perform({op::abort});
    CHECK(ended.reply.kind == kind::aborted && ended.reply.value == 0 && one->look().request(2).kind == 0);
    two.reset(), one.reset();
    const auto book = office.close();
    CHECK(book->held(1, {7}) == mode::X && book->held(4, {9}) == mode::X);
}

// Threads that ask for orphans at the same time get each of them once between them, whether these are there or come back meanwhile.
static void threads_share_the_orphans() {
    constexpr std::size_t threads = 4, lost = 256;
    for (int round = 0; round < 200; ++round) {
        pelgaisti::office office{lost};
        std::vector<pelgaisti::owned_session> all, found[threads];
        for (std::size_t k = 0; k < lost; ++k) all.push_back(office.take(k));
        std::atomic<bool> is_begun{false};
        std::vector<std::thread> running;
        for (auto &own : found)
            running.emplace_back([&office, &is_begun, &own] {
                while (!is_begun) continue;
                for (int k = 0; k < 8; ++k)
                    for (auto &it : office.orphans()) own.push_back(std::move(it));
            });
        if (round % 2 == 0) all.clear();
        is_begun = true;
        all.clear();
        for (auto &it : running) it.join();
        unsigned times[lost + 1] = {}, wrong = 0;
        for (const auto &own : found)
            for (const auto number : numbers(office, own)) ++times[number];
        const auto left = office.orphans();
        for (const auto number : numbers(office, left)) ++times[number];
        for (std::size_t number = 1; number <= lost; ++number) wrong += times[number] != 1;
        CHECK(wrong == 0);
    }
}

// The mark is that of one transaction of one session, and the waker is called for that session. It ends nothing.
static void marks_are_of_transactions() {
    std::vector<std::uint32_t> woken;
    const auto notes = noting(woken);
    pelgaisti::office office{how(2, UINT64_MAX, &notes)}, plain{1};
    const auto first = office[0].perform({op::begin}).reply.value, second = office[1].perform({op::begin}).reply.value;
    CHECK(!office.is_asked_to_end(1, first) && !office.is_asked_to_end(1, 0));
    office.ask_to_end(1, first);
    CHECK(woken == std::vector<std::uint32_t>{1} && office.is_asked_to_end(1, first));
    CHECK(!office.is_asked_to_end(1, second) && !office.is_asked_to_end(2, second) && !office.is_asked_to_end(2, first));
    CHECK(office[1].look().transaction(1).number == first);
    CHECK(reply(office[0], {op::abort}) == kind::aborted);
    const auto third = office[0].perform({op::begin}).reply.value;
    CHECK(!office.is_asked_to_end(1, third));
    office.ask_to_end(1, third);
    office.ask_to_end(1, first);  // late
    CHECK(office.is_asked_to_end(1, third) && !office.is_asked_to_end(1, first));
    office.ask_to_end(2, second);
    CHECK(woken == (std::vector<std::uint32_t>{1, 1, 1, 2}) && office.is_asked_to_end(2, second));
    plain.ask_to_end(1, 5);
    CHECK(plain.is_asked_to_end(1, 5));
    for (const std::uint32_t number : {0u, 3u, UINT32_MAX}) {
        CHECK(throws(PELGAISTI_NO_SUCH_SESSION, [&] { office.ask_to_end(number, first); }));
        CHECK(throws(PELGAISTI_NO_SUCH_SESSION, [&] { static_cast<void>(office.is_asked_to_end(number, first)); }));
    }
}

// Where sessions sleep: how often each was woken and hasn't slept since.
struct beds {
    std::mutex guard;
    std::condition_variable changed;
    unsigned woken[4] = {};

    static void wake(void *engine, std::uint32_t session) noexcept {
        auto &it = *static_cast<beds *>(engine);
        const std::lock_guard<std::mutex> lock(it.guard);
        ++it.woken[session];
        it.changed.notify_all();
    }
    void sleep(std::uint32_t session) {
        std::unique_lock<std::mutex> lock(guard);
        changed.wait(lock, [&] { return woken[session] > 0; });
        --woken[session];
    }
};

// Session 1 holds a database and thinks, 2 and 3 wait for it. 1 and 2 are asked to end, in either order and with no time between. 3 has
// the database in the end.
static void asked_sessions_obey() {
    beds all;
    const pelgaisti::waker wakes{beds::wake, &all};
    pelgaisti::office office{how(3, 1024, &wakes)};
    std::atomic<unsigned> wrong{0};
    const auto work = [&](std::uint32_t number, std::uint64_t transaction) {
        auto &session = office[number - 1];
        auto told = reply(session, {op::lock, mode::X, {1}});
        const auto is_asked = [&] { return office.is_asked_to_end(number, transaction); };
        for (; (told == kind::waiting || number == 1) && !is_asked(); told = reply(session, {op::poll})) all.sleep(number);
        const bool ends = is_asked();
        wrong += reply(session, {ends ? op::abort : op::commit}) != (ends ? kind::aborted : kind::committed);
        wrong += (ends && number == 3) || (!ends && number == 1);
    };
    for (int round = 0; round < 200; ++round) {
        std::uint64_t transactions[3];
        for (std::size_t k = 0; k < 3; ++k) transactions[k] = office[k].perform({op::begin}).reply.value;
        CHECK(reply(office[0], {op::lock, mode::X, {1}}) == kind::granted);
        std::vector<std::thread> running;
        for (std::uint32_t k = 0; k < 3; ++k) running.emplace_back(work, k + 1, transactions[k]);
        const std::uint32_t first = 1 + static_cast<std::uint32_t>(round) % 2;
        office.ask_to_end(first, transactions[first - 1]);
        office.ask_to_end(3 - first, transactions[2 - first]);
        for (auto &it : running) it.join();
    }
    CHECK(wrong == 0 && office.close()->gauges().locks == 0);
}

// Offices that aren't closed: with a pending call and a pending program, with one that is served and not collected, after a close that failed, and one that an
// exception leaves; ASan finds what they leak.
static void offices_are_left() {
    pelgaisti::office pending{3}, served{3}, begun{3};
    pending[2].publish({op::begin});
    served[1].publish({op::begin});
    CHECK(served[0].serve()->served == 1);
    CHECK(!pending[0].run({pelgaisti::start::begins, {op::poll}}, 0));
    begun[2].publish({op::begin});
    CHECK(throws(PELGAISTI_PENDING, [&] { begun.close(); }) && begun[1].perform({op::begin}).reply.value == 2);
    CHECK(throws(PELGAISTI_PENDING, [&] { begun.close(); }) && begun[0].perform({op::begin}).reply.value == 3);
    bool is_left = false;
    try {
        pelgaisti::office office{2};
        office[1].publish({op::begin});
        throw std::runtime_error("lost");
    } catch (const std::runtime_error &) {
        is_left = true;
    }
    CHECK(is_left);
    pelgaisti::office closed{2};
    CHECK(closed.close()->length() == 0 && throws(PELGAISTI_CLOSED, [&] { closed.close(); }));
}

// No count of the caller's makes a call allocate for more than there is.
static void sizes() {
    constexpr std::size_t most = std::size_t{1} << 20;
    largest = 0;
    for (const std::size_t count : {std::size_t{0}, std::size_t{PELGAISTI_MAX_SESSIONS} + 1, std::size_t{1} << 26, SIZE_MAX}) {
        CHECK(throws(PELGAISTI_NO_SUCH_COUNT, [&] { pelgaisti::office none(count); }));
        CHECK(throws(PELGAISTI_NO_SUCH_COUNT, [&] { pelgaisti::book none(count); }));
    }
    CHECK(largest < 1024);
    pelgaisti::office office{2};
    std::uint64_t first = 9;
    for (int call = 0; call < 300; ++call) CHECK(office[1].perform({op::poll}).place == static_cast<std::uint64_t>(call));
    CHECK(office[0].take_history(10, first)->size() == 10 && first == 0);
    CHECK(office[0].take_history(SIZE_MAX, first)->size() == 290 && first == 10 && largest < most);
    CHECK(office[0].take_history(std::size_t{1} << 40, first)->empty() && first == 300);
    for (int call = 0; call < 300; ++call) CHECK(office[1].perform({op::poll}).place == 300u + static_cast<unsigned>(call));
    CHECK(office[1].take_history(299, first)->size() == 299 && first == 300);
    auto book = office.close();
    CHECK(book->history(599, 0).empty() && book->take_history(SIZE_MAX).size() == 1 && largest < most);
}

// Makes a call with its first allocation refused, then with its second one, and so on, until none is. Behind each that throws the state has
// to be as it was. Returns how many allocations the call makes.
template <class Call, class State> static long each_refused(Call call, State is_as_before) {
    for (long at = 0;; ++at) {
        left = at;
        try {
            call();
            left = -1;
            return at;
        } catch (const std::bad_alloc &) {
            CHECK(is_as_before());
        }
    }
}

// Lists take memory before the call that writes them, and none behind it: a refusal loses no entry of the history, and no list is copied.
static void refused_lists() {
    pelgaisti::office office{20};
    for (std::uint32_t s = 1; s <= 20; ++s) {
        CHECK(office[s - 1].perform({op::begin}).reply.kind == kind::began);
        CHECK(office[s - 1].perform({op::lock, s < 20 ? mode::S : mode::X, {7}}).reply.kind == (s < 20 ? kind::granted : kind::waiting));
    }
    const auto always = [] { return true; };
    pelgaisti::session &asks = office[0];
    CHECK(each_refused([&] { CHECK(asks.look().holders({7}).size() == 19); }, always) == 2);
    CHECK(each_refused([&] { CHECK(asks.look().blockers(20).size() == 19); }, always) == 2);
    CHECK(each_refused([&] { CHECK(asks.look().dump().rows.size() == 40); }, always) == 2);
    CHECK(each_refused([&] { CHECK(asks.look().locks_of(1, SIZE_MAX).size() == 1); }, always) == 1);
    std::uint64_t first = 9;
    CHECK(each_refused([&] { CHECK(asks.take_history(4, first)->size() == 4); }, [&] { return first == 9; }) == 1 && first == 0);
    CHECK(each_refused([&] { CHECK(asks.take_history(SIZE_MAX, first)->size() == 36); }, [&] { return first == 0; }) == 1 && first == 4);

    for (int call = 0; call < 30; ++call) CHECK(office[1].perform({op::poll}).reply.kind == kind::clear);
    const auto book = office.close();
    const auto keeps_all = [&] { return book->first_kept() == 40 && book->length() == 70; };
    CHECK(each_refused([&] { CHECK(book->holders({7}).size() == 19); }, keeps_all) == 2);
    CHECK(each_refused([&] { CHECK(book->dump().rows.size() == 40); }, keeps_all) == 2);
    CHECK(each_refused([&] { CHECK(book->blockers(20).size() == 19); }, keeps_all) == 2);
    CHECK(each_refused([&] { CHECK(book->ended().empty()); }, keeps_all) == 1);
    CHECK(each_refused([&] { CHECK(book->locks_of(1, SIZE_MAX).size() == 1); }, keeps_all) == 1);
    CHECK(each_refused([&] { CHECK(book->history(40, SIZE_MAX).size() == 30); }, keeps_all) == 1);
    CHECK(each_refused([&] { CHECK(book->take_history(20).size() == 20); }, keeps_all) == 1 && book->first_kept() == 60);
}

static void names() {
    CHECK(std::string(name(mode::U)) == "U" && std::string(name(op::release)) == "release");
    CHECK(std::string(name(kind::clear)) == "clear" && std::string(name(static_cast<kind>(12))) == "unknown");
    CHECK(std::string(name(pelgaisti::refusal::too_many_locks)) == "TooManyLocks");
    CHECK(std::string(name(pelgaisti::refusal::not_waiting)) == "NotWaiting" && std::string(name(op::try_lock)) == "try");
    CHECK(std::string(name(op::withdraw)) == "withdraw" && std::string(name(kind::withdrawn)) == "withdrawn");
    CHECK(std::string(name(op::restart)) == "restart" && std::string(name(kind::restarted)) == "restarted");
}

int main() {
    for (const auto test : {books, seeds_and_memory, paths_tell, programs, session_programs, tries, offices, locks_end, books_tell_deadlocks, offices_tell_deadlocks, wakers, a_task_throws,
                            sessions_have_owners, orphans_wait, threads_share_the_orphans, marks_are_of_transactions, asked_sessions_obey, offices_are_left, sizes, refused_lists, names}) {
        try {
            test();
        } catch (const pelgaisti::error &error) {
            tell(false, __LINE__, error.what());
        }
    }
    std::printf("%d passed, %d failed\n", passed, failed);
    return failed != 0;
}
