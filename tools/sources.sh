# What a program or a library is built from. Read by scripts that define `top`.

# crates NAME: the crates that the crate stands on, and its own
crates() {
    awk -v name="$1" '{ sub(/#.*/, "") }
        /:/ { split($0, halves, ":"); split(halves[1], head, " "); uses[head[1]] = halves[2] }
        function visit(name, own, count, at) {
            if (!(name in uses) || name in seen) return
            seen[name]
            count = split(uses[name], own, " ")
            for (at = 1; at <= count; at++) visit(own[at])
            print name
        }
        END { visit(name) }' "$top/crates.txt"
}

# sources NAME PARTS FILE..: a line for each source in these parts of the crate and of those below, and for each of the files: its size, the
# time of its last change, its name
sources() {
    local name parts="$2" folders=()
    for name in $(crates "$1"); do folders+=($(printf "crates/$name/%s " $parts)); done
    (cd "$top" && find HANDLES crates.txt "${folders[@]}" "${@:3}" -type f \( -name '*.rt' -o -name '*.antt' -o ! -path 'crates/*' \) \
        -printf '%s %T@ %p\n' 2> /dev/null | LC_ALL=C sort)
}
