// A store's first transaction: counts how often this program has run, in a row of table 1 of database 1.
#include "store.hpp"
#include <cstdio>

int main() {
    store::database rows("first.db");
    store::client client(rows);
    const long times = client.run([](store::transaction &t) {
        const long before = std::stol(t.read_to_write({1, 1, 7}).value_or("0"));
        t.write({1, 1, 7}, std::to_string(before + 1));
        return before + 1;
    });
    std::printf("this program has run %ld times\n", times);
}
