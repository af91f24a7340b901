/* A deadlock as lines of text, for people, in the words of crates/lock_explain/specs/DeadlockText.antt. Nothing here is proved. */
#include "text.h"

/* What a request asks for. */
static void put_request(struct text *out, const pelgaisti_claim *request) {
    const int is_conversion = request->kind == PELGAISTI_CONVERSION;
    put_words(out, is_conversion ? "to convert " : "for ");
    put_resource(out, &request->resource);
    put_words(out, is_conversion ? " to " : " in ");
    put_words(out, pelgaisti_mode_name(request->mode));
}

/* How the next session blocks the request: by the lock that it holds, or by its request ahead. */
static void put_block(struct text *out, uint32_t next, uint32_t held) {
    put_words_and_number(out, held == PELGAISTI_NL ? ", behind session " : ", which session ", next);
    if (held == PELGAISTI_NL) return;
    put_words(out, " holds in ");
    put_words(out, pelgaisti_mode_name(held));
}

/* The line of a member, which waits for session `next`. */
static void put_wait(struct text *out, const pelgaisti_member *member, uint32_t next) {
    put_words_and_number(out, "  session ", member->request.session);
    put_words_and_number(out, ", transaction ", member->request.transaction);
    put_words(out, ", waits ");
    put_request(out, &member->request);
    put_block(out, next, member->held);
    put(out, '\n');
}

size_t pelgaisti_deadlock_text(const pelgaisti_deadlock *deadlock, const pelgaisti_member *members, char *text, size_t room) {
    struct text out = {text, room, 0};
    const size_t count = deadlock->members;
    const uint32_t victim = count > 0 ? members[0].request.session : 0;
    size_t k;
    put_words_and_number(&out, "deadlock at place ", deadlock->place);
    put_words_and_number(&out, ": session ", deadlock->session);
    put_words_and_number(&out, " closed a cycle, session ", victim);
    put_words(&out, " is its victim\n");
    for (k = 0; k < count; k++) put_wait(&out, &members[k], k + 1 < count ? members[k + 1].request.session : victim);
    return end_text(&out);
}
