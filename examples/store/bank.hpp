// A bank. Each branch is a database with a table of accounts. Transfers move money between any two of them; an audit adds up all accounts of
// all branches, whose tables it locks in S. Money is neither made nor lost, and each audit sees the same sum.
#ifndef STORE_BANK_HPP
#define STORE_BANK_HPP
#include "store.hpp"

namespace store {

// Numbers that look random, from a seed.
class random_numbers {
    std::uint64_t state_;
public:
    explicit random_numbers(std::uint64_t seed) : state_(seed * 0x9e3779b97f4a7c15u + 1) {}
    std::uint32_t below(std::uint32_t bound) {
        state_ = state_ * 6364136223846793005u + 1442695040888963407u;
        return static_cast<std::uint32_t>((state_ >> 33) % bound);
    }
    std::uint32_t between(std::uint32_t least, std::uint32_t most) { return least + below(most - least + 1); }
};

class bank {
public:
    struct options {
        std::uint32_t branches = 2, accounts = 1000, audits = 100;  // accounts of a branch; one transaction in so many is an audit
        bool in_order = false;  // each transfer locks its accounts in the order of their paths, so that no cycle of waits closes
    };
    explicit bank(const options &asked) : asked_(asked) {}

    void load(rocksdb::DB &rows) const {
        rocksdb::WriteBatch batch;
        for (std::uint32_t b = 1; b <= asked_.branches; ++b)
            for (std::uint32_t a = 1; a <= asked_.accounts; ++a) store::load(batch, {b, accounts, a}, std::to_string(start));
        store::check(rows.Write(rocksdb::WriteOptions(), &batch));
    }

    // Makes one transaction of a client.
    template <class Client> void make(Client &client, random_numbers &random) const {
        if (random.below(asked_.audits) == 0) {
            const long sum = client.run([&](auto &t) { return audit(t); }, then::next);
            if (sum != whole()) throw std::runtime_error("an audit has seen " + std::to_string(sum) + " of " + std::to_string(whole()));
            return;
        }
        path from = account(random), to = account(random);
        while (same_path()(from, to)) to = account(random);
        if (asked_.in_order && key_of(to) < key_of(from)) std::swap(from, to);
        const long sum = random.between(1, 10);
        client.run([&](auto &t) { transfer(t, from, to, sum); }, then::next);
    }

    // Whether the money is what it was, when nobody uses the database.
    bool is_whole(rocksdb::DB &rows) const {
        long sum = 0;
        std::unique_ptr<rocksdb::Iterator> at(rows.NewIterator(rocksdb::ReadOptions()));
        for (at->SeekToFirst(); at->Valid(); at->Next()) sum += std::stol(at->value().ToString().substr(header::bytes));
        return sum == whole();
    }

private:
    enum : std::uint32_t { accounts = 1 };
    enum : long { start = 1000 };

    long whole() const { return static_cast<long>(asked_.branches) * asked_.accounts * start; }
    path account(random_numbers &random) const {
        return {random.between(1, asked_.branches), accounts, random.between(1, asked_.accounts)};
    }
    template <class Transaction> static void transfer(Transaction &t, const path &from, const path &to, long sum) {
        const long has = std::stol(t.read_to_write(from).value());
        const long other = std::stol(t.read_to_write(to).value());
        if (has < sum) return;
        t.write(from, std::to_string(has - sum));
        t.write(to, std::to_string(other + sum));
    }
    template <class Transaction> long audit(Transaction &t) const {
        long sum = 0;
        for (std::uint32_t b = 1; b <= asked_.branches; ++b)
            t.scan({b, accounts}, [&](const path &, std::string_view value) { sum += std::stol(std::string(value)); });
        return sum;
    }

    const options asked_;
};

}  // namespace store
#endif
