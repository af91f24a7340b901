// Whether a run was serializable: whether there is a serial order of its transactions in which each one reads and writes the versions that
// it has read and written. There is one if the graph of their dependencies has no cycle.
//
// Of each row the versions are numbered. A transaction depends on another one that must come before it:
//   ww  it wrote the version behind one that the other has written
//   wr  it read a version that the other has written
//   rw  it wrote the version behind one that the other has read
#ifndef STORE_GRAPH_HPP
#define STORE_GRAPH_HPP
#include "store.hpp"

#include <algorithm>
#include <string>
#include <unordered_map>
#include <vector>

namespace store {

struct verdict {
    std::size_t transactions = 0, dependencies = 0;
    std::string fault;  // a cycle, or a version that no transaction of the log has written; else empty
};

class dependencies {
    struct edge {
        std::size_t to;
        const char *kind;
        const access *by;  // whose row and version it is about
    };
    std::unordered_map<std::uint64_t, std::size_t> index_;
    std::vector<std::uint64_t> numbers_;
    std::vector<std::vector<edge>> after_;  // of each transaction those that must come behind it
    std::size_t count_ = 0;

    std::size_t index_of(std::uint64_t number) {
        const auto found = index_.try_emplace(number, numbers_.size());
        if (found.second) numbers_.push_back(number), after_.emplace_back();
        return found.first->second;
    }
    void add(const access &from, const access &to, const char *kind) {
        if (from.transaction == to.transaction) return;
        after_[index_of(from.transaction)].push_back({index_of(to.transaction), kind, &to});
        ++count_;
    }

    static std::string told(const path &row) {
        std::string text;
        for (std::uint32_t k = 0; k < row.level; ++k) text += (k ? "/" : "") + std::to_string(row.numbers[k]);
        return text;
    }

    // Adds the dependencies of a row, by its accesses in the order of versions, of each version its write first. Returns a fault, or nothing.
    std::string add_row(const access *from, const access *to) {
        const access *before = from, *before_end = from;  // the accesses of the version before
        while (from < to) {
            const access *end = from, *writes_end = from;
            while (end < to && end->version == from->version) ++end;
            while (writes_end < end && writes_end->is_write) ++writes_end;
            for (const access *one = from; one < writes_end; ++one) {
                for (const access *other = from; other < writes_end; ++other)  // each has overwritten the other
                    if (one != other) add(*one, *other, "ww");
                for (const access *old = before; old < before_end; ++old) add(*old, *one, old->is_write ? "ww" : "rw");
            }
            for (const access *read = writes_end; read < end; ++read) {
                const access *of = std::find_if(from, writes_end, [&](const access &it) { return it.transaction == read->writer; });
                if (of < writes_end) add(*of, *read, "wr");
                else if (read->writer != 0)
                    return "transaction " + std::to_string(read->transaction) + " has read version " + std::to_string(read->version) +
                           " of " + told(read->row) + ", which no transaction has committed";
            }
            before = from, before_end = from = end;
            if (end < to && end->version != before->version + 1) before = before_end;  // the version before was read by nobody
        }
        return {};
    }

    // A cycle among the transactions that come behind others without end, or nothing.
    std::string cycle() const {
        std::vector<std::size_t> left(after_.size(), 0), free;
        for (const auto &edges : after_)
            for (const edge &it : edges) ++left[it.to];
        for (std::size_t k = 0; k < left.size(); ++k)
            if (left[k] == 0) free.push_back(k);
        while (!free.empty()) {
            const std::size_t first = free.back();
            free.pop_back();
            for (const edge &it : after_[first])
                if (--left[it.to] == 0) free.push_back(it.to);
        }
        // what is left has one of its own before it: walk back until one comes again
        std::vector<std::pair<std::size_t, const edge *>> before(after_.size(), {0, nullptr});
        std::size_t at = after_.size();
        for (std::size_t k = 0; k < after_.size(); ++k)
            if (left[k] > 0)
                for (const edge &it : after_[k])
                    if (left[it.to] > 0) before[it.to] = {k, &it}, at = it.to;
        if (at == after_.size()) return {};
        for (std::size_t k = 0; k < after_.size(); ++k) at = before[at].first;
        std::string text = std::to_string(numbers_[at]);
        for (std::size_t k = at;;) {
            const auto [from, by] = before[k];
            text = std::to_string(numbers_[from]) + " -" + by->kind + " " + told(by->by->row) + " version " +
                   std::to_string(by->by->version) + "-> " + text;
            if ((k = from) == at) return "a cycle: " + text;
        }
    }

public:
    verdict judge(std::vector<access> &log) {
        std::sort(log.begin(), log.end(), [](const access &a, const access &b) {
            const int rows = std::memcmp(a.row.numbers, b.row.numbers, sizeof a.row.numbers);
            if (rows != 0 || a.row.level != b.row.level) return rows != 0 ? rows < 0 : a.row.level < b.row.level;
            return a.version != b.version ? a.version < b.version : a.is_write > b.is_write;
        });
        verdict found;
        const access *const end = log.data() + log.size();
        for (const access *from = log.data(), *to = from; from < end; from = to) {
            while (to < end && same_path()(from->row, to->row)) index_of(to++->transaction);
            const std::string fault = add_row(from, to);
            if (found.fault.empty()) found.fault = fault;
        }
        if (found.fault.empty()) found.fault = cycle();
        found.transactions = numbers_.size();
        found.dependencies = count_;
        return found;
    }
};

// Judges the logs of all clients of a run, whose rows were loaded, or not there, before it. Sorts the log.
inline verdict judge(std::vector<access> &log) { return dependencies().judge(log); }

}  // namespace store
#endif
