# Makes one archive of the library and the program, which needs no prover and no compiler of Rattle to be used. Read by ./embed after
# install.sh, which defines `stage`.
#
# The archive has the layout of an install, in one folder: bin, include, lib and share, with the documents and examples in share/doc.
# Its files for pkg-config and CMake find the folder from where they lie. README.md says what is where, BUILT from what it was made, and
# SHA256SUMS has a checksum of each other file. The same files are packed into the same bytes.

# The checksum of all sources of the library and the program, by their names in the checkout.
sum_of_sources() {
    (cd "$top" && find crates.txt HANDLES embed glm include bindings shell crates/*/src crates/*/specs crates/*/proofs -type f \
        ! -path '*/target/*' ! -name Cargo.lock -print0 | LC_ALL=C sort -z | xargs -0 sha256sum | sha256sum | cut -d' ' -f1)
}

# What the archive says of itself.
tell_built() {
    local version="$1"
    cat << END
Pelgaisti $version for x86-64 Linux with the GNU C library, made by ./embed --dist from a checkout of its sources.

proved with: $(rt version)
compiled with: $($compiler --version | head -n 1)
linked with: $(ld --version | head -n 1)
packed with: $(tar --version | head -n 1); $(gzip --version | head -n 1)
sources (sha256 over the sha256 of each): $(sum_of_sources)

To make it again take the same sources, kit, C compiler, binutils, tar and gzip, and compare the checksums of the archives:
    ./embed --dist FOLDER && sha256sum FOLDER/$name.tar.gz
What is where: README.md. To check the files: sha256sum -c SHA256SUMS
END
}

# fit_document TO FILE: fits a document of the checkout, FILE below TO/share/doc/pelgaisti, to the archive. A link to a header leads to
# TO/include, one to a file that the archive hasn't got becomes its text, and behind the first heading a line says whose names the
# document has. What looks like a link in code stays.
fit_document() {
    local doc="$1/share/doc/pelgaisti" file="$2"
    (cd "$doc" && find . -mindepth 1 -printf '%P\n' && cd "$1" && find include -type f) |
        awk -v file="$file" '
        function target_of(target, name, anchor, parts, count, k, path, up) {
            if (target ~ /^[a-z]+:/ || target ~ /^#/) return target
            name = target; sub(/#.*/, "", name)
            anchor = substr(target, length(name) + 1)
            count = split(file, parts, "/") - 1
            for (k = 1; k <= count; k++) up = up "../"
            path = ""
            for (k = 1; k <= count; k++) path = path parts[k] "/"
            path = path name
            while (path ~ /[^\/]+\/\.\.\//) sub(/[^\/]+\/\.\.\//, "", path)
            sub(/\/$/, "", path)
            if (!(path in there)) return ""
            return path ~ /^include\// ? up "../../../" path : name anchor
        }
        # removes the bracket of a link text that ends here, also if it begins some lines before
        function cut_bracket(text, at, k) {
            for (at = length(text); at > 0 && substr(text, at, 1) != "["; at--) continue
            if (at > 0) return substr(text, 1, at - 1) substr(text, at + 1)
            for (k = lines; k > 0 && k > lines - 3; k--)
                for (at = length(written[k]); at > 0; at--)
                    if (substr(written[k], at, 1) == "[") {
                        written[k] = substr(written[k], 1, at - 1) substr(written[k], at + 1)
                        return text
                    }
            return text
        }
        FNR == NR { there[$0]; next }
        /^ ? ? ?(```|~~~)/ { is_fenced = !is_fenced }
        {
            line = $0; done = ""
            while (!is_fenced && $0 !~ /^    / && match(line, /\]\([^() ]*\)/)) {
                done = done substr(line, 1, RSTART - 1)
                target = substr(line, RSTART + 2, RLENGTH - 3)
                line = substr(line, RSTART + RLENGTH)
                fitted = gsub(/`/, "`", done) % 2 ? target : target_of(target)
                done = fitted == "" ? cut_bracket(done) : done "](" fitted ")"
            }
            written[++lines] = done line
            if (!is_told && /^# /) {
                is_told = 1
                count = split(file, parts, "/") - 1
                up = "../../../"
                for (k = 1; k <= count; k++) up = up "../"
                written[++lines] = ""
                written[++lines] = "*This document is that of the checkout, of which the archive has a part. What lies where in the archive: [README.md](" up "README.md). What is told of `out/` holds of `include` and `lib` here, of `bindings/rust` of `share/pelgaisti/rust`. Files below `bench/`, `bindings/c`, `checks/` and `crates/`, `./embed`, `./glm` and `./test` are in the checkout.*"
            }
        }
        END { for (k = 1; k <= lines; k++) print written[k] }' - "$doc/$file" > "$work/fitted" && mv "$work/fitted" "$doc/$file"
}

# Fills `$work/$name` with the files of the archive.
gather() {
    local version="$1" to="$work/$name" doc="$work/$name/share/doc/pelgaisti" file
    stage /usr || return 1
    mv "$work/stage" "$to" || return 1
    "$top/glm" --install /usr --destdir "$work/program" ${over_gate:+--over-gate} || return 1
    rm -r "$work/program/usr/share/glm" && cp -r "$work/program/usr/." "$to/" || return 1
    for file in "$to"/lib/pkgconfig/*.pc; do
        sed -i 's,^prefix=.*,prefix=${pcfiledir}/../..,' "$file" || return 1
    done
    mkdir -p "$doc/docs" "$doc/examples" "$doc/bench" &&
        cp "$top"/{README.md,CHANGELOG.md,CITATION.cff} "$doc/" &&
        cp "$top"/docs/* "$doc/docs/" &&
        cp "$top/bench/README.md" "$doc/bench/" &&
        cp -r "$top"/examples/* "$doc/examples/" &&
        cp "$top/bindings/package/README.md" "$to/" &&
        tell_built "$version" > "$to/BUILT" || return 1
    while IFS= read -r file; do
        fit_document "$to" "$file" || return 1
    done < <(cd "$doc" && find . -name '*.md' -printf '%P\n')
    find "$to" -type d -exec chmod 755 {} + && find "$to" -type f -exec chmod 644 {} + && chmod 755 "$to"/bin/* || return 1
    (cd "$to" && find . -type f ! -name SHA256SUMS -printf '%P\0' | LC_ALL=C sort -z | xargs -0 sha256sum) > "$work/sums" &&
        mv "$work/sums" "$to/SHA256SUMS"
}

# Stops if the folder can't be made or written.
can_write_to() {
    local folder="$1"
    { mkdir -p -- "$folder" && : > "$folder/pelgaisti.new-$$" && rm -f "$folder/pelgaisti.new-$$"; } 2> "$work/why" ||
        { tell "$folder can't be written: $(sed -nE '1s/^.*: //p' "$work/why")"; exit 73; }
}

# Makes the archive in the folder.
make_archive() {
    local folder="$1" version name archive
    version="$(sed -nE 's/^#define PELGAISTI_VERSION "([0-9.]+)"$/\1/p' "$top/include/pelgaisti.h")"
    name="pelgaisti-$version-x86_64-linux-gnu"
    archive="$folder/$name.tar.gz"
    gather "$version" || { tell "the files can't be gathered in $work"; exit 73; }
    tar --format=gnu --sort=name --owner=0 --group=0 --numeric-owner --mtime=@0 -C "$work" -cf - "$name" | gzip -9n > "$archive.new-$$" &&
        [ "${PIPESTATUS[*]}" = "0 0" ] && mv -f "$archive.new-$$" "$archive" ||
        { rm -f "$archive.new-$$"; tell "$archive can't be written"; exit 73; }
    tell "made $archive: $(wc -l < "$work/$name/SHA256SUMS") files, sha256 $(sha256sum < "$archive" | cut -d' ' -f1)"
}
