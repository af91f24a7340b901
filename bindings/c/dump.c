/* The rows of a dump as text. Nothing here is proved; checks/embedding_dump compares it with what glm show --csv writes. */
#include "text.h"

static int is_on(const pelgaisti_claim *row, const pelgaisti_claim *other) {
    if (row->kind == 0 || row->resource.level != other->resource.level) return 0;
    for (uint32_t level = 0; level < row->resource.level && level < PELGAISTI_LEVELS; level++)
        if (row->resource.numbers[level] != other->resource.numbers[level]) return 0;
    return 1;
}

static int is_request(const pelgaisti_claim *row) { return row->kind == PELGAISTI_CONVERSION || row->kind == PELGAISTI_FRESH; }

/* Whether a lock in the mode `held` keeps a request for `asked` waiting: the conflict masks of docs/RULES.md, each for a mode. */
static int conflicts(uint32_t asked, uint32_t held) {
    static const uint8_t masks[16] = {[PELGAISTI_IS] = 8, [PELGAISTI_IX] = 4, [PELGAISTI_S] = 10, [PELGAISTI_SIX] = 6, [PELGAISTI_U] = 10,
                                      [PELGAISTI_X] = 1};
    return (masks[asked & 15] & held) != 0;
}

/* The index of the waiting request of the session with the least number above `session`, `count` if there is none. */
static size_t request_above(const pelgaisti_claim *rows, size_t count, uint32_t session) {
    size_t found = count;
    for (size_t k = 0; k < count; k++)
        if (is_request(&rows[k]) && rows[k].session > session && (found == count || rows[k].session < rows[found].session)) found = k;
    return found;
}

/* The first blocker of the request at this index, 0 if there is none, and for how many others the request waits: it waits for the holders
   that it conflicts with, and for those ahead in its queue. The first is the first in the order of the rows. */
static uint32_t first_blocker(const pelgaisti_claim *rows, size_t request, uint32_t *others) {
    uint64_t blockers[PELGAISTI_MAX_SESSIONS / 64] = {0};
    size_t first = request;
    uint32_t count = 0;
    for (; first > 0 && is_on(&rows[first - 1], &rows[request]); first--) {
        const pelgaisti_claim *row = &rows[first - 1];
        const uint32_t bit = row->session - 1;
        if (row->session == rows[request].session || bit >= PELGAISTI_MAX_SESSIONS) continue;
        if (!is_request(row) && !conflicts(rows[request].mode, row->mode)) continue;
        count += !(blockers[bit / 64] >> bit % 64 & 1);
        blockers[bit / 64] |= (uint64_t)1 << bit % 64;
    }
    *others = count - (count > 0);
    for (; first < request; first++) {
        const uint32_t bit = rows[first].session - 1;
        if (bit < PELGAISTI_MAX_SESSIONS && blockers[bit / 64] >> bit % 64 & 1) return rows[first].session;
    }
    return 0;
}

/* Moves on to the next request that waits for somebody, by its session: its index and 1 is `wait_`, which is 0 in front of the first. The
   number is its first blocker, 0 if there is no such request. */
static uint32_t next_wait(const pelgaisti_claim *rows, size_t count, pelgaisti_dumping *at, uint32_t *others) {
    uint32_t first = 0;
    while (first == 0 && at->wait_ <= count) {
        const size_t request = request_above(rows, count, at->wait_ == 0 ? 0 : rows[at->wait_ - 1].session);
        at->wait_ = request + 1;
        if (request < count) first = first_blocker(rows, request, others);
    }
    return first;
}

/* A row of a session, of a kind: what it has open, a lock or a request. */
static void put_row(struct text *out, const pelgaisti_claim *row) {
    static const char *const kinds[] = {"transaction,", "held,", "conversion,", "fresh,"};
    put_words_and_number(out, kinds[row->kind & 3], row->session);
    put_words_and_number(out, ",", row->transaction);
    put_words(out, row->doomed ? ",victim," : ",,");
    put_resource(out, &row->resource);
    put(out, ',');
    if (row->kind) put_words(out, pelgaisti_mode_name(row->mode));
    put_words(out, ",\n");
}

uint32_t pelgaisti_dump_line(const pelgaisti_claim *rows, size_t written, pelgaisti_dumping *at, char *text, size_t room) {
    struct text out = {text, room, 0};
    if (at->row_ < written) {
        put_row(&out, &rows[at->row_++]);
        return (uint32_t)end_text(&out);
    }
    uint32_t others;
    const uint32_t first = next_wait(rows, written, at, &others);
    if (first == 0) return 0;
    put_words_and_number(&out, "waits,", rows[at->wait_ - 1].session);
    put_words_and_number(&out, ",,,,,", first);
    if (others > 0) put_words_and_number(&out, "+", others);
    put(&out, '\n');
    return (uint32_t)end_text(&out);
}
