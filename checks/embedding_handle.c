/* Two threads use one handle, one after the other, with nothing that orders them: ThreadSanitizer has to report it, although it sees
   nothing of what the archive does. Status 0 means that it didn't. With an argument the threads are ordered, by a join, and nothing is
   reported. */
#include "open.h"
#include <pthread.h>

static pelgaisti_session session[1];
static int is_used;

static void *use(void *unused) {
    uint64_t seen;
    pelgaisti_session_seen(session, &seen);
    __atomic_store_n(&is_used, 1, __ATOMIC_RELAXED); /* orders nothing */
    return unused;
}

int main(int argc, char **argv) {
    pthread_t other;
    (void)argv;
    if (open_sessions(session, 1) != PELGAISTI_OK) return 1;
    pthread_create(&other, NULL, use, NULL);
    while (!__atomic_load_n(&is_used, __ATOMIC_RELAXED)) continue;
    if (argc > 1) pthread_join(other, NULL);
    use(NULL);
    if (argc == 1) pthread_join(other, NULL);
    return 0;
}
