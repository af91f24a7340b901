/* Two copies of the library in one process: the archive, which is linked, and the shared library, which the argument names. Each calls
   its own functions. If handles of both meet, against the rules, the call tells it, as both copies give their offices other marks. */
#define _GNU_SOURCE
#include "pelgaisti.h"
#include <dlfcn.h>
#include <stdio.h>

static int failed;
#define CHECK(condition) (void)((condition) || (failed++, printf("%s:%d: %s\n", __FILE__, __LINE__, #condition)))

/* The functions of the shared library. */
static pelgaisti_status (*open_theirs)(pelgaisti_session *, const pelgaisti_options *), (*close_theirs)(pelgaisti_session *, pelgaisti_book *);
static pelgaisti_status (*hand_in_theirs)(pelgaisti_session *, pelgaisti_session *), (*close_book)(pelgaisti_book *);

int main(int argc, char **argv) {
    static pelgaisti_session ours[2], theirs[2];
    const pelgaisti_options options = PELGAISTI_OPTIONS(2);
    pelgaisti_book book = PELGAISTI_EMPTY;
    void *library = argc > 1 ? dlopen(argv[1], RTLD_NOW | RTLD_GLOBAL) : NULL;
    if (!library) return 2;
    *(void **)&open_theirs = dlsym(library, "pelgaisti_office_open");
    *(void **)&hand_in_theirs = dlsym(library, "pelgaisti_session_hand_in");
    *(void **)&close_theirs = dlsym(library, "pelgaisti_office_close");
    *(void **)&close_book = dlsym(library, "pelgaisti_book_close");
    CHECK(open_theirs && hand_in_theirs && close_theirs && close_book && open_theirs != pelgaisti_office_open);
    /* also where both have opened as many offices before */
    for (int k = 0; k < 3; k++) {
        CHECK(open_theirs(theirs, &options) == PELGAISTI_OK && pelgaisti_office_open(ours, &options) == PELGAISTI_OK);
        CHECK(pelgaisti_session_hear(&theirs[1], &ours[0]) == PELGAISTI_OTHER_OFFICE);
        CHECK(pelgaisti_session_hear(&ours[0], &theirs[1]) == PELGAISTI_OTHER_OFFICE);
        CHECK(pelgaisti_session_hand_in(&theirs[1], &ours[0]) == PELGAISTI_OTHER_OFFICE);
        CHECK(hand_in_theirs(&theirs[1], &ours[0]) == PELGAISTI_OTHER_OFFICE);
        CHECK(pelgaisti_session_hand_in(&ours[1], &ours[0]) == PELGAISTI_OK && hand_in_theirs(&theirs[1], &theirs[0]) == PELGAISTI_OK);
        CHECK(pelgaisti_office_close(&ours[0], &book) == PELGAISTI_OK && pelgaisti_book_close(&book) == PELGAISTI_OK);
        CHECK(close_theirs(&theirs[0], &book) == PELGAISTI_OK && close_book(&book) == PELGAISTI_OK);
    }
    return failed != 0;
}
