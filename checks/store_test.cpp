// Tests of examples/store: its judgement of logs that were made by hand, and what its clients do at a time-out, a deadlock, an exception,
// refused memory, with several offices, and with intention locks that are kept. The argument is a folder for the rows. Prints what fails;
// status 1 if anything did. Link with -Wl,--wrap=malloc,--wrap=realloc.
#include "../examples/store/drive.hpp"

#include <cstdio>
#include <filesystem>
#include <future>
#include <thread>

using namespace std::chrono_literals;
using store::path;
using store::then;
using logged = store::access;  // C has a function of this name

namespace {

unsigned failures = 0;
void must(bool is_well, const char *what) {
    if (!is_well) std::fprintf(stderr, "store_test: %s\n", what), ++failures;
}

// How many allocations of the library are refused next, on this thread.
thread_local unsigned refused = 0;
bool is_refused() { return refused > 0 && refused-- > 0; }

std::filesystem::path folder;
unsigned made_databases = 0;
std::string fresh() { return (folder / std::to_string(++made_databases)).string(); }

const path x{1, 1, 1}, y{1, 1, 2}, elsewhere{2, 1, 1};

store::offices::options with(std::chrono::milliseconds limit, std::size_t count = 1, std::size_t keeps = 0, bool looks = false) {
    store::offices::options asked;
    asked.clients = 4, asked.count = count, asked.keeps = keeps, asked.limit = limit, asked.looks = looks;
    return asked;
}

// Rows that say "0".
void load(store::database &rows) {
    rocksdb::WriteBatch batch;
    for (const path &row : {x, y, elsewhere}) store::load(batch, row, "0");
    store::check(rows.rows().Write(rocksdb::WriteOptions(), &batch));
}

void add(store::transaction &t, const path &row) { t.write(row, std::to_string(std::stol(t.read_to_write(row).value()) + 1)); }
std::string value(store::database &rows, const path &row) {
    store::client reader(rows);
    return reader.run([&](store::transaction &t) { return t.read(row).value_or("none"); });
}

logged read(std::uint64_t by, const path &row, std::uint64_t version, std::uint64_t of) { return {by, row, version, of, false}; }
logged write(std::uint64_t by, const path &row, std::uint64_t version) { return {by, row, version, by, true}; }

void logs_are_judged() {
    std::vector<logged> serial{read(1, x, 1, 0), write(1, x, 2), read(2, x, 2, 1), write(2, x, 3), read(3, x, 1, 0)};
    const auto found = store::judge(serial);
    // 3 before 1 (rw), and 1 before 2 twice (ww, wr)
    must(found.fault.empty() && found.transactions == 3 && found.dependencies == 3, "a serial log");
    const auto has_cycle = [](std::vector<logged> log) { return store::judge(log).fault.rfind("a cycle: ", 0) == 0; };
    must(has_cycle({read(1, x, 1, 0), write(1, x, 2), read(2, x, 1, 0), write(2, x, 2)}), "a lost update");
    must(has_cycle({read(1, x, 1, 0), read(1, y, 1, 0), write(1, x, 2), read(2, x, 1, 0), read(2, y, 1, 0), write(2, y, 2)}),
         "two that wrote what the other has read");
    must(has_cycle({write(1, x, 2), read(1, y, 2, 2), write(2, y, 2), read(2, x, 2, 1)}), "two that read what the other wrote");
    must(has_cycle({write(1, x, 2), write(1, y, 3), write(2, x, 3), write(2, y, 2)}), "two that wrote in two orders");
    must(has_cycle({write(1, x, 2), read(2, x, 2, 1), write(2, y, 2), read(3, y, 2, 2), write(3, elsewhere, 2), read(1, elsewhere, 2, 3)}),
         "a cycle of three");
    must(has_cycle({write(1, x, 1), write(2, x, 1)}), "two that made one row");
    must(!has_cycle({write(1, x, 2), read(2, x, 2, 1), write(2, y, 2), read(3, y, 2, 2), read(3, x, 2, 1)}), "a log without a cycle");
    std::vector<logged> dirty{read(2, x, 2, 9)};
    must(store::judge(dirty).fault == "transaction 2 has read version 2 of 1/1/1, which no transaction has committed", "a dirty read");
}

void rows_are_written_and_undone() {
    store::database rows(fresh());
    load(rows);
    store::client client(rows);
    client.run([](store::transaction &t) {
        add(t, x);
        must(t.read(x) == "1", "a transaction doesn't see what it wrote");
        t.erase(y);
        must(!t.read(y), "an erased row is there");
        t.insert({1, 1, 3}, "new");
        std::string seen;
        t.scan({1, 1}, [&](const path &row, std::string_view of) { seen += std::to_string(row.numbers[2]) + "=" + std::string(of) + " "; });
        must(seen == "1=1 3=new ", "a scan sees other rows");
    });
    try {
        client.run([](store::transaction &t) {
            add(t, x);
            t.write(y, "back");
            throw 7;
        });
        must(false, "an exception doesn't come out");
    } catch (int) {}
    must(value(rows, x) == "1" && value(rows, y) == "none" && value(rows, {1, 1, 3}) == "new", "what was undone is there, or what wasn't isn't");
    client.run([](store::transaction &t) { t.write(y, "back"); });
    std::string stored;
    store::check(rows.rows().Get(rocksdb::ReadOptions(), store::key_of(y), &stored));
    must(store::header::of(stored).version == 3, "the versions of an erased row don't go on");  // loaded, erased, written
}

// Whether the client is told within its limit that it has waited for too long.
bool waits(store::client &client, const path &row) {
    try {
        add(client.begin(), row);
    } catch (const store::must_retry &why) {
        client.abort();
        return why.why == store::must_retry::reason::limit;
    }
    client.abort();
    return false;
}

void requests_are_withdrawn() {
    store::database rows(fresh(), with(20ms));
    load(rows);
    store::client holder(rows), other(rows);
    add(holder.begin(), x);
    must(waits(other, x), "a request isn't withdrawn");
    auto late = std::async(std::launch::async, [&] { other.run([](store::transaction &t) { add(t, x); }); });  // more than one limit
    std::this_thread::sleep_for(100ms);
    holder.commit();
    late.get();
    must(other.counted().limits > 0 && value(rows, x) == "2", "a transaction that has waited for too long isn't made again");
}

void victims_are_made_again() {
    store::database rows(fresh(), with(60s));
    load(rows);
    store::client older(rows), younger(rows);
    std::atomic<bool> is_taken{false};
    auto &first = older.begin();
    add(first, x);
    std::thread other([&] {
        younger.run([&](store::transaction &t) {
            add(t, y);
            is_taken = true;
            add(t, x);
        });
    });
    while (!is_taken) std::this_thread::yield();
    add(first, y);  // closes a cycle, whose victim is the younger one, or is granted behind it
    older.commit();
    other.join();
    must(younger.counted().deadlocks == 1 && older.counted().deadlocks == 0, "the younger one isn't the victim, once");
    must(value(rows, x) == "2" && value(rows, y) == "2", "a victim isn't made again");
}

void victims_keep_their_age() {
    store::database rows(fresh(), with(60s));
    load(rows);
    store::client first(rows), second(rows), third(rows);
    std::atomic<int> tries{0};
    auto &oldest = first.begin();
    add(oldest, x);
    std::thread other([&] {
        second.run([&](store::transaction &t) {
            add(t, y);
            add(t, ++tries == 1 ? x : elsewhere);
        });
    });
    while (tries < 1) std::this_thread::yield();
    auto &youngest = third.begin();
    add(youngest, elsewhere);
    add(oldest, y);  // makes the second one a victim, which begins again
    first.commit();
    while (tries < 2) std::this_thread::yield();
    try {
        add(youngest, y);  // of a cycle of the second and the third one
        must(false, "a victim that is made again is the youngest");
        third.commit();
    } catch (const store::must_retry &) { third.abort(); }
    other.join();
    must(second.counted().deadlocks == 1 && value(rows, elsewhere) == "1" && value(rows, x) == "1" && value(rows, y) == "2", "a victim isn't made again, or twice");
}

void orphans_are_taken_over() {
    store::database rows(fresh(), with(20ms));
    load(rows);
    const auto get_lost = [&] {
        try {
            store::client lost(rows);
            add(lost.begin(), x);
            throw std::runtime_error("a client's connection has ended");
        } catch (const std::runtime_error &) {}
    };
    store::client other(rows);
    get_lost();
    other.run([](store::transaction &t) { add(t, x); });  // whoever has waited for too long looks after orphans
    must(other.counted().limits == 1, "an orphan keeps its locks, or has none");
    get_lost();
    store::client newcomer(rows);  // whoever connects does so, too
    newcomer.run([](store::transaction &t) { add(t, x); });
    must(newcomer.counted().limits == 0 && value(rows, x) == "2", "an orphan's writes are there, or its locks");
}

void locks_are_left_to_the_next_transaction() {
    store::database rows(fresh(), with(20ms));
    load(rows);
    store::client client(rows), other(rows);
    client.run([](store::transaction &t) { add(t, x); }, then::next);
    must(waits(other, x), "a transaction that another one follows gives its locks back");
    client.run([](store::transaction &t) { add(t, y); }, then::next);
    must(!waits(other, x) && waits(other, y), "the next transaction doesn't commit the one before");
    client.rest();
    must(!waits(other, y), "a client that rests keeps locks");
}

void offices_are_left_behind() {
    store::database rows(fresh(), with(20ms, 2));
    load(rows);
    store::client client(rows), other(rows);
    client.run([](store::transaction &t) { add(t, x), add(t, elsewhere); }, then::next);
    must(waits(other, x) && waits(other, elsewhere), "a transaction that another one follows gives its locks back in one of its offices");
    client.run([](store::transaction &t) { add(t, y); }, then::next);
    must(!waits(other, x) && !waits(other, elsewhere) && waits(other, y), "the next transaction doesn't commit the one before in each office");
}

// Two clients that each hold a row and ask for that of the other one, in another office.
void cycles_across_offices_end(const store::offices::options &asked, bool by_looks) {
    store::database rows(fresh(), asked);
    load(rows);
    store::client one(rows), two(rows);
    std::atomic<int> both{0};
    const auto meet = [&](store::client &client, const path &first, const path &second) {
        client.run([&, is_first = true](store::transaction &t) mutable {
            add(t, first);
            if (is_first) for (++both; both < 2;) std::this_thread::yield();
            is_first = false;
            add(t, second);
        });
    };
    std::thread other([&] { meet(two, elsewhere, x); });
    meet(one, x, elsewhere);
    other.join();
    const auto deadlocks = one.counted().deadlocks + two.counted().deadlocks, limits = one.counted().limits + two.counted().limits;
    must(value(rows, x) == "2" && value(rows, elsewhere) == "2", "a cycle across offices loses a transaction");
    must(by_looks ? deadlocks == 1 && limits == 0 : deadlocks == 0 && limits > 0, "a cycle across offices ends otherwise");
}

void intention_locks_are_kept() {
    store::database rows(fresh(), with(50ms, 1, 2));
    load(rows);
    store::client client(rows), other(rows);
    client.run([](store::transaction &t) { add(t, x); }, then::next);
    must(!waits(other, x), "a row's lock is kept");
    const auto scan = [&](store::client &by) {
        try {
            by.begin().scan({1, 1}, [](const path &, std::string_view) {});
            by.commit();
            return true;
        } catch (const store::must_retry &) {
            by.abort();
            return false;
        }
    };
    must(!scan(other), "an intention lock isn't kept");
    client.rest();
    must(scan(other), "a client that rests keeps intention locks");
    // more rows than are given back one by one: all is committed
    client.run([](store::transaction &t) { add(t, x), add(t, y), add(t, {1, 1, 1}), t.insert({1, 1, 9}, ""), t.insert({1, 1, 10}, ""); }, then::next);
    must(waits(other, x), "more rows are given back than was asked for");
}

void kept_intention_locks_are_given_up() {
    store::database rows(fresh(), with(60s, 1, 2));
    load(rows);
    store::client client(rows), other(rows);
    client.run([](store::transaction &t) { add(t, x); }, then::next);
    std::atomic<bool> is_begun{false};
    auto later = std::async(std::launch::async, [&] {
        other.run([&](store::transaction &t) {
            is_begun = true;
            t.scan({1, 1}, [](const path &, std::string_view) {});
        });
    });
    while (!is_begun) std::this_thread::yield();
    std::this_thread::sleep_for(300ms);  // it waits
    client.run([&](store::transaction &t) {
        add(t, elsewhere);
        must(later.wait_for(10s) == std::future_status::ready, "intention locks aren't given up for who wants a subtree");
    });
    later.get();
}

void rows_dont_come_into_a_scan() {
    store::database rows(fresh(), with(20ms));
    load(rows);
    store::client reader(rows), writer(rows);
    unsigned seen = 0;
    reader.begin().scan({1, 1}, [&](const path &, std::string_view) { ++seen; });
    try {
        writer.begin().insert({1, 1, 3}, "new");
        must(false, "a row comes into a scan");
    } catch (const store::must_retry &why) {
        must(why.why == store::must_retry::reason::limit, "a row that would come into a scan closes a cycle");
        reader.commit();
        writer.again(why);
    }
    writer.abort();
    writer.run([](store::transaction &t) { t.insert({1, 1, 3}, "new"); });
    must(seen == 2 && value(rows, {1, 1, 3}) == "new", "a scan sees other rows than there are, or one can't be written behind it");
}

void memory_is_refused(std::uint64_t history) {
    store::offices::options how = with(20ms);
    how.history = history;
    store::database rows(fresh(), how);
    load(rows);
    store::client client(rows), other(rows);
    for (const std::uint32_t from : {1u, 10u})  // in the first program of a client, and in a later one
        try {
            client.run([&](store::transaction &t) {
                for (std::uint32_t number = 1; number <= 2000; ++number) {
                    if (number == from) refused = 3;
                    t.insert({1, 2, number}, "new");
                }
            });
            must(false, "a transaction goes on where memory is refused");
        } catch (const pelgaisti::error &why) {
            must(why.status() == PELGAISTI_NO_MEMORY && std::exchange(refused, 0u) < 3, "refused memory is told otherwise");
        }
    other.run([](store::transaction &t) {
        t.scan({1, 2}, [](const path &, std::string_view) { must(false, "what was undone for want of memory is there"); });
        t.insert({1, 2, 5}, "other");
    });
    must(other.counted().limits == 0, "a transaction that was undone for want of memory keeps its locks");
    unsigned told = 0;
    for (unsigned k = 0; k < 300; ++k) {  // now and then the first program of a transaction lacks memory
        refused = 1;
        try {
            client.run([](store::transaction &t) { static_cast<void>(t.read(x)); });
        } catch (const pelgaisti::error &) { ++told; }
        refused = 0;
        client.run([](store::transaction &t) { add(t, x); });
    }
    must((told > 0) == (history > 0), "memory is refused at other places");
    must(value(rows, x) == "300" && value(rows, {1, 2, 5}) == "other", "a client doesn't go on behind refused memory");
}

void readers_go_on_beside_one_who_will_write() {
    store::database rows(fresh(), with(20ms));
    load(rows);
    store::client reader(rows), writer(rows), other(rows);
    static_cast<void>(reader.begin().read(x));
    must(writer.begin().read_to_write(x) == "0", "who will write waits for a reader");
    must(waits(other, x), "two that will write read beside one another");
    writer.abort();
    reader.commit();
}

}  // namespace

extern "C" {
void *__real_malloc(std::size_t);
void *__real_realloc(void *, std::size_t);
void *__wrap_malloc(std::size_t size);
void *__wrap_realloc(void *block, std::size_t size);
void *__wrap_malloc(std::size_t size) { return is_refused() ? nullptr : __real_malloc(size); }
void *__wrap_realloc(void *block, std::size_t size) { return is_refused() ? nullptr : __real_realloc(block, size); }
}

int main(int, char **words) {
    folder = words[1];
    logs_are_judged();
    rows_are_written_and_undone();
    requests_are_withdrawn();
    victims_are_made_again();
    victims_keep_their_age();
    orphans_are_taken_over();
    locks_are_left_to_the_next_transaction();
    offices_are_left_behind();
    cycles_across_offices_end(with(40ms, 2), false);
    cycles_across_offices_end(with(60s, 2, 0, true), true);
    intention_locks_are_kept();
    kept_intention_locks_are_given_up();
    rows_dont_come_into_a_scan();
    memory_is_refused(0);
    memory_is_refused(UINT64_MAX);  // each call, also a begin, may need memory
    readers_go_on_beside_one_who_will_write();
    return failures > 0;
}
