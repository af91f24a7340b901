// The orders of TPC-C: three of its five transactions, new order, payment and order status, in the shares of its mix (45, 43 and 4 of 92).
// Each warehouse is a database. What differs from TPC-C:
// - 1,000 items in place of 100,000, and 300 customers of a district in place of 3,000.
// - Customers are found by their numbers alone, never by their names.
// - No delivery and no stock level, no terminals, no time to think.
// - The last order of each customer is a row of its own, where TPC-C leaves it to an index.
// The lines of an order are below it, and the payments of a customer below that customer: a lock on the one suffices for the others. Items
// are never written, and read without a lock. Each transaction goes through warehouses in the order of their numbers.
#ifndef STORE_ORDERS_HPP
#define STORE_ORDERS_HPP
#include "bank.hpp"

#include <map>

namespace store {

class orders {
public:
    struct options {
        std::uint32_t warehouses = 2, items = 1000, customers = 300;
    };
    explicit orders(const options &asked) : asked_(asked) {}

    void load(rocksdb::DB &rows) const {
        random_numbers random(1);
        rocksdb::WriteBatch batch;
        for (std::uint32_t i = 1; i <= asked_.items; ++i) put(batch, {0, item_table, i}, item{random.between(100, 10000), {}});
        for (std::uint32_t w = 1; w <= asked_.warehouses; ++w) {
            put(batch, {w, warehouse_table, 1}, warehouse{0, random.below(2000), {}});
            for (std::uint32_t i = 1; i <= asked_.items; ++i) put(batch, {w, stock_table, i}, stock{random.between(10, 100), 0, 0, 0, {}});
            for (std::uint32_t d = 1; d <= districts; ++d) {
                put(batch, {w, district_table, d}, district{0, 1, random.below(2000), {}});
                for (std::uint32_t c = 1; c <= asked_.customers; ++c)
                    put(batch, {w, customer_table, in_district(d, c)}, customer{-1000, 1000, 1, random.below(5000), {}});
            }
            store::check(rows.Write(rocksdb::WriteOptions(), &batch));
            batch.Clear();
        }
    }

    template <class Client> void make(Client &client, random_numbers &random) const {
        const std::uint32_t turn = random.below(92);
        if (turn < 45) {
            const order_asked asked = draw_order(random);
            try {
                client.run([&](auto &t) { new_order(t, asked); }, then::next);
            } catch (const no_such_item &) {}  // one order in a hundred is undone
        } else if (turn < 88) {
            const payment_asked asked = draw_payment(random);
            client.run([&](auto &t) { pay(t, asked); }, then::next);
        } else {
            const std::uint32_t w = home(random), c = in_district(random.between(1, districts), draw_customer(random));
            client.run([&](auto &t) { order_status(t, w, c); }, then::next);
        }
    }

    // Consistency conditions 1 to 4 of TPC-C, when nobody uses the database: the first that doesn't hold, or nothing.
    std::string fault(rocksdb::DB &rows) const {
        for (std::uint32_t w = 1; w <= asked_.warehouses; ++w) {
            std::int64_t paid = 0;
            std::map<std::uint32_t, std::uint32_t> newest, newest_new, new_orders, lines, counted;  // by district
            each_row(rows, {w, order_table}, [&](const path &row, std::string_view value) {
                const std::uint32_t d = row.numbers[2] >> 24;
                if (row.level == 4) ++counted[d];
                else newest[d] = row.numbers[2] & 0xffffff, lines[d] += as<order>(value).lines;
            });
            each_row(rows, {w, new_order_table}, [&](const path &row, std::string_view) {
                newest_new[row.numbers[2] >> 24] = row.numbers[2] & 0xffffff, ++new_orders[row.numbers[2] >> 24];
            });
            std::string found;
            each_row(rows, {w, district_table}, [&](const path &row, std::string_view value) {
                const district it = as<district>(value);
                const std::uint32_t d = row.numbers[2];
                paid += it.paid;
                if (it.next_order - 1 != newest[d] || newest[d] != newest_new[d]) found = "the newest order of a district isn't the last one";
                if (newest_new[d] != new_orders[d]) found = "there is a gap between the new orders of a district";
            });
            each_row(rows, {w, warehouse_table}, [&](const path &, std::string_view value) {
                if (as<warehouse>(value).paid != paid) found = "a warehouse was paid another sum than its districts";
            });
            if (lines != counted) found = "orders have other lines than they count";
            if (!found.empty()) return found + ", of warehouse " + std::to_string(w);
        }
        return {};
    }

private:
    enum : std::uint32_t {
        warehouse_table = 1, district_table, customer_table, stock_table, order_table, new_order_table, last_order_table, item_table
    };
    enum : std::uint32_t { districts = 10, most_lines = 15 };
    struct no_such_item {};

    // rows, with as many further bytes as TPC-C's have
    struct item { std::uint32_t price; char rest[78]; };
    struct warehouse { std::int64_t paid; std::uint32_t tax; char rest[76]; };
    struct district { std::int64_t paid; std::uint32_t next_order, tax; char rest[80]; };
    struct customer { std::int64_t balance, paid; std::uint32_t payments, discount; char rest[632]; };
    struct stock { std::uint32_t quantity, sold, orders, remote; char rest[290]; };
    struct order { std::uint32_t customer, lines, is_local; };
    struct order_line { std::uint32_t item, supplier, quantity; std::int64_t amount; char rest[24]; };

    struct line_asked { std::uint32_t item, supplier, quantity; };
    struct order_asked { std::uint32_t home, district, customer, count; line_asked lines[most_lines]; };
    struct payment_asked { std::uint32_t home, district, customer_home, customer, sum; };

    template <class Row> static std::string_view bytes_of(const Row &row) { return {reinterpret_cast<const char *>(&row), sizeof row}; }
    template <class Row> static Row as(std::string_view bytes) {
        Row row;
        if (bytes.size() != sizeof row) throw std::runtime_error("a row has another length than its table's");
        std::memcpy(static_cast<void *>(&row), bytes.data(), sizeof row);
        return row;
    }
    template <class Row> static void put(rocksdb::WriteBatch &batch, const path &at, const Row &row) { store::load(batch, at, bytes_of(row)); }
    // An order's number, or a customer's, together with its district's.
    static std::uint32_t in_district(std::uint32_t district, std::uint32_t number) { return district << 24 | number; }

    template <class Each> static void each_row(rocksdb::DB &rows, const path &tree, Each each) {
        const std::string prefix = key_of(tree);
        std::unique_ptr<rocksdb::Iterator> at(rows.NewIterator(rocksdb::ReadOptions()));
        for (at->Seek(prefix); at->Valid() && at->key().starts_with(prefix); at->Next())
            each(path_of(at->key().ToStringView()), at->value().ToStringView().substr(header::bytes));
    }

    std::uint32_t home(random_numbers &random) const { return random.between(1, asked_.warehouses); }
    // TPC-C's numbers that aren't drawn evenly: some come far more often.
    static std::uint32_t draw(random_numbers &random, std::uint32_t mask, std::uint32_t most) {
        return (random.below(mask) | random.between(1, most)) % most + 1;
    }
    std::uint32_t draw_customer(random_numbers &random) const { return draw(random, 1024, asked_.customers); }
    std::uint32_t draw_item(random_numbers &random) const { return draw(random, 8192, asked_.items); }
    std::uint32_t another(std::uint32_t home, random_numbers &random) const {
        return asked_.warehouses == 1 ? home : (home + random.below(asked_.warehouses - 1)) % asked_.warehouses + 1;
    }

    order_asked draw_order(random_numbers &random) const {
        order_asked asked{home(random), random.between(1, districts), draw_customer(random), random.between(5, most_lines), {}};
        const bool is_wrong = random.below(100) == 0;
        for (std::uint32_t k = 0; k < asked.count; ++k) {
            const bool is_remote = random.below(100) == 0;
            asked.lines[k] = {draw_item(random), is_remote ? another(asked.home, random) : asked.home, random.between(1, 10)};
        }
        if (is_wrong) asked.lines[asked.count - 1].item = asked_.items + 1;
        std::sort(asked.lines, asked.lines + asked.count, [](const line_asked &a, const line_asked &b) {
            return a.supplier != b.supplier ? a.supplier < b.supplier : a.item < b.item;
        });
        return asked;
    }
    payment_asked draw_payment(random_numbers &random) const {
        payment_asked asked{home(random), random.between(1, districts), 0, 0, random.between(100, 500000)};
        asked.customer_home = random.below(100) < 15 ? another(asked.home, random) : asked.home;
        asked.customer = in_district(random.between(1, districts), draw_customer(random));
        return asked;
    }

    template <class Row, class Transaction> static Row read(Transaction &t, const path &at) { return as<Row>(t.read(at).value()); }
    template <class Row, class Transaction> static Row read_to_write(Transaction &t, const path &at) { return as<Row>(t.read_to_write(at).value()); }

    template <class Transaction> static void take_from_stock(Transaction &t, const order_asked &asked, const line_asked &line) {
        const path at{line.supplier, stock_table, line.item};
        if (!t.look({0, item_table, line.item})) throw no_such_item();
        auto has = read_to_write<stock>(t, at);
        has.quantity = has.quantity >= line.quantity + 10 ? has.quantity - line.quantity : has.quantity + 91 - line.quantity;
        has.sold += line.quantity;
        ++has.orders;
        has.remote += line.supplier != asked.home;
        t.write(at, bytes_of(has));
    }

    template <class Transaction> static void new_order(Transaction &t, const order_asked &asked) {
        const line_asked *line = asked.lines, *const end = asked.lines + asked.count;
        for (; line < end && line->supplier < asked.home; ++line) take_from_stock(t, asked, *line);

        const auto tax = read<warehouse>(t, {asked.home, warehouse_table, 1}).tax;
        const path district_at{asked.home, district_table, asked.district};
        auto in = read_to_write<district>(t, district_at);
        const std::uint32_t number = in_district(asked.district, in.next_order++);
        t.write(district_at, bytes_of(in));
        const std::uint32_t buyer = in_district(asked.district, asked.customer);
        const auto discount = read<customer>(t, {asked.home, customer_table, buyer}).discount;
        const bool is_local = asked.lines[0].supplier == asked.home && end[-1].supplier == asked.home;
        t.insert({asked.home, order_table, number}, bytes_of(order{buyer, asked.count, is_local}));
        t.insert({asked.home, new_order_table, number}, bytes_of(number));
        t.write({asked.home, last_order_table, buyer}, bytes_of(number));

        for (; line < end; ++line) take_from_stock(t, asked, *line);
        for (std::uint32_t k = 0; k < asked.count; ++k) {
            const line_asked &it = asked.lines[k];
            const auto price = as<item>(t.look({0, item_table, it.item}).value()).price;
            const std::int64_t amount = std::int64_t{price} * it.quantity * (10000 + tax + in.tax) / 10000 * (10000 - discount) / 10000;
            order_line made{};
            made.item = it.item, made.supplier = it.supplier, made.quantity = it.quantity, made.amount = amount;
            t.insert({asked.home, order_table, number, k + 1}, bytes_of(made));
        }
    }

    template <class Transaction> static void pay_by_customer(Transaction &t, const payment_asked &asked) {
        const path at{asked.customer_home, customer_table, asked.customer};
        auto by = read_to_write<customer>(t, at);
        by.balance -= asked.sum;
        by.paid += asked.sum;
        const std::uint32_t number = by.payments++;
        t.write(at, bytes_of(by));
        t.insert({asked.customer_home, customer_table, asked.customer, number}, bytes_of(asked));
    }

    template <class Transaction> static void pay(Transaction &t, const payment_asked &asked) {
        if (asked.customer_home < asked.home) pay_by_customer(t, asked);
        const path warehouse_at{asked.home, warehouse_table, 1}, district_at{asked.home, district_table, asked.district};
        auto to = read_to_write<warehouse>(t, warehouse_at);
        to.paid += asked.sum;
        t.write(warehouse_at, bytes_of(to));
        auto in = read_to_write<district>(t, district_at);
        in.paid += asked.sum;
        t.write(district_at, bytes_of(in));
        if (asked.customer_home >= asked.home) pay_by_customer(t, asked);
    }

    template <class Transaction> static void order_status(Transaction &t, std::uint32_t w, std::uint32_t c) {
        static_cast<void>(read<customer>(t, {w, customer_table, c}));
        const auto last = t.read({w, last_order_table, c});
        if (!last) return;
        const auto number = as<std::uint32_t>(*last);
        const auto made = read<order>(t, {w, order_table, number});
        for (std::uint32_t k = 1; k <= made.lines; ++k) static_cast<void>(read<order_line>(t, {w, order_table, number, k}));
    }

    const options asked_;
};

}  // namespace store
#endif
