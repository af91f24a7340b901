# Installs the library below a prefix, and takes it away again. Read by ./embed, which defines `top`, `work` and `tell`,
# and calls `place` and then `can_install` and `install_all`, or `uninstall_all`; and by ./glm, which installs the program and has
# its own `listed`, `folders` and `stage`.
#
# What is installed is listed in share/pelgaisti/installed: a line for each file, and before them a line that ends in / for each
# folder that was made for it, by its path from the prefix (./ is the prefix itself, ../ the folder above it). All files are
# copied beside their places first and then renamed, so that a failure leaves what was there.
listed=share/pelgaisti/installed
# the folders below the prefix to which files go
folders="include lib share"

# Fills `$work/stage` with the files as they will be below the prefix.
stage() {
    local prefix="$1" to="$work/stage" from="$top/bindings/package" version number escaped shared
    version="$(sed -nE 's/^#define PELGAISTI_VERSION "([0-9.]+)"$/\1/p' "$top/include/pelgaisti.h")"
    number="$(sed -nE 's/^#define PELGAISTI_HEADER_VERSION ([0-9]+)$/\1/p' "$top/include/pelgaisti.h")"
    shared="$top/out/libpelgaisti.so.$number"
    escaped="$(sed -E 's/[^A-Za-z0-9/._+-]/\\&/g' <<< "$prefix")" # what pkg-config prints, a shell reads again
    mkdir -p "$to"/{include,lib/pkgconfig,lib/cmake/pelgaisti,share/pelgaisti/rust/{src,examples}} &&
        cp "$top"/include/pelgaisti.{h,hpp} "$to/include/" &&
        cp "$top/out/libpelgaisti.a" "$to/lib/" &&
        cp "$from/pelgaisti-config.cmake" "$to/lib/cmake/pelgaisti/" &&
        cp "$top"/bindings/rust/{Cargo.toml,build.rs} "$to/share/pelgaisti/rust/" &&
        cp "$top"/bindings/rust/src/*.rs "$to/share/pelgaisti/rust/src/" &&
        cp "$top"/bindings/rust/examples/*.rs "$to/share/pelgaisti/rust/examples/" &&
        VERSION="$version" PREFIX="$escaped" fill "$from/pelgaisti.pc.in" "$to/lib/pkgconfig/pelgaisti.pc" &&
        VERSION="$version" fill "$from/pelgaisti-config-version.cmake.in" "$to/lib/cmake/pelgaisti/pelgaisti-config-version.cmake" &&
        cp "$shared" "$to/lib/" &&
        VERSION="$version" NUMBER="$number" PREFIX="$escaped" fill "$from/pelgaisti-shared.pc.in" "$to/lib/pkgconfig/pelgaisti-shared.pc" &&
        (cd "$to" && find . -type f | sed 's,^\./,,' | LC_ALL=C sort) > "$work/files"
}

# fill FROM TO: copies a text, with @PREFIX@, @VERSION@ and @NUMBER@ replaced
fill() {
    awk '{
        while (at = match($0, /@(PREFIX|VERSION|NUMBER)@/)) {
            name = substr($0, at + 1, RLENGTH - 2)
            printf "%s%s", substr($0, 1, at - 1), ENVIRON[name]
            $0 = substr($0, at + RLENGTH)
        }
        print
    }' "$1" > "$2"
}

# The path of a folder from the prefix, as the list has it.
line_of() {
    local folder="$1" above="$target" line=""
    case "$folder/" in
        "$target/") echo ./ ;;
        "$target"/*) echo "${folder#"$target"/}/" ;;
        *)
            while [ "$above" != "$folder" ] && [ "$above" != / ]; do
                above="$(dirname "$above")"
                line="../$line"
            done
            echo "$line"
            ;;
    esac
}

# The folder of such a line.
folder_of() {
    local line="$1" folder="$target"
    case "$line" in
        ./) echo "$target" ;;
        ../*)
            for (( ; ${#line} > 0; )); do
                folder="$(dirname "$folder")"
                line="${line#../}"
            done
            echo "$folder"
            ;;
        *) echo "$target/${line%/}" ;;
    esac
}

made=() copied=()

# Makes a folder, and those above it that are missing, and notes those that it made.
make_folder() {
    [ -d "$1" ] && return
    make_folder "$(dirname "$1")" && mkdir -m 755 "$1" 2> "$work/why" && made+=("$1")
}

# Takes back what an install has made that isn't finished.
take_back() {
    local at
    [ "${#copied[@]}" -eq 0 ] || rm -f "${copied[@]}"
    for ((at = ${#made[@]} - 1; at >= 0; at--)); do rmdir "${made[at]}" 2> /dev/null; done
    made=() copied=()
}

refuse() {
    tell "$1: $(sed -nE '1s/^[^:]*: //p' "$work/why")"
    tell "nothing was installed"
    exit 73
}

# Copies the staged files beside their places.
copy_all() {
    local file place mode
    while IFS= read -r file; do
        place="$target/$file"
        mode=644
        [[ "$file" != bin/* ]] || mode=755
        make_folder "$(dirname "$place")" || refuse "the folder $(dirname "$place") can't be made"
        [ ! -d "$place" ] || { echo "x: it is a folder" > "$work/why" && refuse "$place can't be written"; }
        copied+=("$place.new-$$")
        { cp "$work/stage/$file" "$place.new-$$" && chmod "$mode" "$place.new-$$"; } 2> "$work/why" || refuse "$place can't be written"
    done < "$work/files"
}

# place PREFIX D: the folder in which files are put (`target`), and the one where they will be (`prefix`)
place() {
    prefix="$(realpath -ms -- "$1")"
    target="$prefix"
    [ -z "$2" ] || target="$(realpath -ms -- "$(realpath -m -- "$2")/$prefix")"
    target="${target%/}"
}

# Stops if the folders can't be made or written, and leaves nothing.
can_install() {
    local folder probe
    trap 'take_back; rm -rf "$work"' EXIT
    for folder in $folders; do
        make_folder "$target/$folder" || refuse "the folder $target/$folder can't be made"
        probe="$target/$folder/pelgaisti.new-$$"
        copied+=("$probe")
        cp /dev/null "$probe" 2> "$work/why" || refuse "$target/$folder can't be written"
    done
    take_back
}

install_all() {
    local file line old_files=() old_folders=()
    stage "$prefix" || { tell "the files can't be gathered in $work"; exit 73; }
    : > "$work/stage/$listed"
    echo "$listed" >> "$work/files"
    if [ -e "$target/$listed" ]; then
        mapfile -t old_folders < <(grep '/$' "$target/$listed")
        mapfile -t old_files < <(grep -v '/$' "$target/$listed")
    fi
    trap 'exit 130' INT TERM HUP
    copy_all
    {
        for line in "${old_folders[@]}"; do printf '%s\n' "$line"; done
        for file in "${made[@]}"; do line_of "$file"; done
        cat "$work/files"
    } 2> "$work/why" > "$target/$listed.new-$$" || refuse "$target/$listed can't be written"
    trap '' INT TERM HUP
    # the list first, so that what is there is always listed
    for file in "$listed" $(grep -vx "$listed" "$work/files"); do
        mv -f "$target/$file.new-$$" "$target/$file" 2> "$work/why" || refuse "$target/$file can't be replaced"
    done
    made=() copied=()
    for file in "${old_files[@]}"; do
        grep -qxF -- "$file" "$work/files" || [[ "/$file/" = */../* ]] || rm -f "$target/$file"
    done
    tell "installed below $target: $(wc -l < "$work/files") files, listed in $target/$listed"
}

uninstall_all() {
    local line lines at left=0
    [ -f "$target/$listed" ] || { tell "nothing is installed below $target: there is no $target/$listed"; exit 66; }
    mapfile -t lines < "$target/$listed"
    for line in "${lines[@]}"; do
        [[ "$line" =~ ^(\.\./)+$ ]] && continue
        [[ "/$line/" != */../* && "$line" != /* && -n "$line" ]] || { tell "a line of $target/$listed is no path below it: $line"; exit 66; }
    done
    for line in "${lines[@]}"; do
        case "$line" in
            */ | "$listed") ;;
            *) rm -f "$target/$line" || left=1 ;;
        esac
    done
    if [ "$left" -ne 0 ] || ! rm -f "$target/$listed"; then
        tell "not all files below $target could be removed; $target/$listed still lists them"
        exit 73
    fi
    for ((at = ${#lines[@]} - 1; at >= 0; at--)); do
        case "${lines[at]}" in
            */) rmdir "$(folder_of "${lines[at]}")" 2> /dev/null ;;
        esac
    done
    tell "uninstalled from $target"
}
