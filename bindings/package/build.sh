# Builds the library, proved or before any proof. Read by ./embed, which defines `top`, `crate`, `work`, `log`, `kept`, `over_gate`, `untrapped`,
# `tell` and `fail`.
. "$top/tools/sources.sh" && . "$top/tools/unproved.sh" || exit 70
compiler="${CC:-cc}"
strict="-std=c11 -O2 -Wall -Wextra -Werror -fPIC -fno-exceptions -fasynchronous-unwind-tables -fno-sanitize=all"

# a line for each source of the library
sources_of_library() {
    sources pelgaisti_c "src specs proofs" embed bindings/c bindings/package/build.sh bindings/package/exports.map include/pelgaisti.h
}

# The gate leaves each library in a form on which rt would build only after it had proved all of them again. The kit's compiler
# takes that form: it proves only the library for C again, in some 12 processor minutes, by as many jobs as RT_JOBS says (1 if it says
# nothing), and compiles it. The library for C that is kept is overwritten, and so isn't kept any more.
build_over_gate() {
    local name libraries=(-L "dependency=$kit/rlibs")
    rm -f "$("$top/tools/prove_crates" --folder)/pelgaisti_c.sum"
    for name in "$top"/crates/*/out/rlib; do libraries+=(-L "dependency=$name"); done
    for name in std $(sed -n 's/^pelgaisti_c staticlib: //p' "$top/crates.txt"); do
        if [ -d "$top/crates/$name" ]; then
            libraries+=(--extern "$name=$top/crates/$name/out/rlib/$name.rlib")
        else
            libraries+=(--extern "$name=$kit/rlibs/$name.rlib")
        fi
    done
    cd "$crate" && "$kit/bin/rattle" build --crate-name pelgaisti_c --crate-type staticlib "${libraries[@]}" \
        --antt-project "$kit/rattle/logic/antt-project.json" --logic-built "$kit/logic_built" --toolchain "$kit/toolchain" \
        --links pelgaisti_c= --jobs "${RT_JOBS:-1}" -o out/libpelgaisti_c.a src/lib.rt
}

# link_object NAME FLAG: compiles bindings/c with the flag, and makes one object of it and the compiled crate, in which the names that
# pelgaisti.h declares are the only global ones.
link_object() {
    local file objects=()
    for file in calls deadlock_text dump lock names programs seed turns wait; do
        $compiler $strict "$2" -I"$top/include" -c "$top/bindings/c/$file.c" -o "$work/$file.o" || return 1
        objects+=("$work/$file.o")
    done
    # liblibc_c.a has the kit's heap calls, which call malloc, realloc and free
    ld -r -o "$work/whole.o" "${objects[@]}" "$work/code.o" "$kit/c/liblibc_c.a" &&
        objcopy -w -G '!pelgaisti_raw_*' -G 'pelgaisti_*' "$work/whole.o" "$work/$1.o"
}

# link_libraries NAME: makes of the compiled crate, $work/code.o, the archive libNAME.a, whose names a shared object that links it doesn't
# export, so that two versions in one process don't mix; and the shared library, which exports them. Its name has the header's version,
# which rises whenever a program that was compiled with an earlier header couldn't use the library.
link_libraries() {
    local name
    echo > "$work/empty.c"
    ! $compiler -Werror -fcf-protection -c "$work/empty.c" -o "$work/empty.o" 2> /dev/null || strict="$strict -fcf-protection"
    name="lib$1.so.$(sed -nE 's/^#define PELGAISTI_HEADER_VERSION ([0-9]+)$/\1/p' "$top/include/pelgaisti.h")"
    link_object pelgaisti -fvisibility=hidden && ar rcsD "$work/lib$1.a" "$work/pelgaisti.o" &&
        link_object shared -fvisibility=default &&
        $compiler -shared -o "$work/$name" "$work/shared.o" -Wl,-soname,"$name" \
            -Wl,--version-script,"$top/bindings/package/exports.map" -Wl,-z,defs
}

# Says what is to be proved, by the lines of prove_crates --left.
tell_building() {
    local count
    count="$(crates pelgaisti_c | wc -l)"
    if [ -z "$1" ]; then
        tell "building: all $count crates are proved from these sources already, and the library is linked; log: ${log#"$PWD/"}"
    else
        tell "building; to be proved first: $(awk -v count="$count" '{ sum += $2 }
            END { printf "%d of %d crates, in some %d", NR, count, sum < 60 ? 1 : sum / 60 + 0.5 }' <<< "$1")" \
            "processor minutes from nothing; log: ${log#"$PWD/"}"
    fi
}

# Finds the tools and the kit.
find_tools() {
    local name
    for name in rt ar ld objcopy "${compiler%% *}"; do
        command -v "$name" > /dev/null || {
            tell "$name isn't on the path: rt is the command of the Rattle kit, ar, ld and objcopy are of binutils, and \$CC or cc is a C compiler"
            exit 70
        }
    done
    kit="$(dirname "$(rt doc)")"
}

# Compiles the library before any proof, unless that is done for these sources, and leaves it in out/try/ with the headers.
try_before_proof() {
    local tried="$top/out/try" listed
    log="$top/out/try.log"
    listed="$(sources pelgaisti_c src embed bindings/c bindings/package include/pelgaisti.h tools/unproved.sh && echo "$untrapped")"
    if [ "$listed" != "$(cat "$tried/sources" 2> /dev/null)" ]; then
        find_tools
        rm -rf "$tried" && mkdir -p "$tried" || { tell "$tried can't be written"; exit 73; }
        tell "trying: the library is compiled before any proof, in a minute or two; log: ${log#"$PWD/"}"
        { compile_unproved pelgaisti_c && link_libraries pelgaisti_unproved; } > "$log" 2>&1 || fail
        cp "$work"/libpelgaisti_unproved.[as]* "$tried/" && printf '%s\n' "$listed" > "$tried/sources" || fail
    fi
    cp "$top"/include/pelgaisti.{h,hpp} "$tried/" || { tell "$tried can't be written"; exit 73; }
    tell "nothing of this library is proved: ${tried#"$PWD/"}/libpelgaisti_unproved.a; link it by -lpelgaisti_unproved"
}

# Builds the library, and leaves it in out/ with its headers.
build() {
    local status listed left line interrupted="" archive
    find_tools
    mkdir -p "$top/out" "$crate/out"
    listed="$(sources_of_library)"
    rm -f "$kept"
    left="$("$top/tools/prove_crates" --left pelgaisti_c 2> "$log")" || fail
    if [ -n "$over_gate" ] && grep -qv '^pelgaisti_c ' <<< "${left:-pelgaisti_c }"; then
        tell "building: the library is proved over the crates that the gate has left, in some 12 processor minutes; log: ${log#"$PWD/"}"
        (build_over_gate) > "$log" 2>&1 < /dev/null
        status="$?"
        archive="$crate/out/libpelgaisti_c.a"
    else
        # proves the crates below side by side, then the library, and compiles it
        tell_building "$left"
        trap 'interrupted=1' INT TERM HUP
        "$top/tools/prove_crates" pelgaisti_c "$log" 2>&1 < /dev/null | while IFS= read -r line; do tell "$line"; done
        status="${PIPESTATUS[0]}"
        trap - INT TERM HUP
        archive="$("$top/tools/prove_crates" --folder)/libpelgaisti_c.a"
        if [ -n "$interrupted" ] || [ "$status" -eq 130 ]; then
            tell "the build was interrupted; what is proved so far is kept"
            exit 130
        fi
    fi
    [ "$status" -eq 0 ] || fail
    {
        objcopy --redefine-sym pelgaisti_version=pelgaisti_raw_version "$archive" "$work/code.o" && link_libraries pelgaisti
    } >> "$log" 2>&1 || fail
    rm -f "$top"/out/libpelgaisti.so.*
    cp "$work"/libpelgaisti.[as]* "$top/include/pelgaisti.h" "$top/include/pelgaisti.hpp" "$top/out/" || fail
    printf '%s\n' "$listed" > "$kept"
}

# Builds the library unless it is built from these sources.
build_if_changed() {
    [ -e "$top/out/libpelgaisti.a" ] && [ "$(sources_of_library)" = "$(cat "$kept" 2> /dev/null)" ] || build
}
