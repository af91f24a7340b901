// Ignores a result of pelgaisti.hpp: IGNORED, which the compiler is given. Where it tells what the caller has, a compiler warns.
#include "pelgaisti.hpp"

void ignore([[maybe_unused]] pelgaisti::book &book, [[maybe_unused]] pelgaisti::session &session, pelgaisti::office &office);

void ignore([[maybe_unused]] pelgaisti::book &book, [[maybe_unused]] pelgaisti::session &session,
            [[maybe_unused]] pelgaisti::office &office) {
    [[maybe_unused]] std::vector<pelgaisti::entry> entries;
    [[maybe_unused]] std::uint64_t first = 0;
    IGNORED;
}
