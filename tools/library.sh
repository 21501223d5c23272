# The library and the program, as shell functions: found, and proved or built where they are not current. They are run
# from the repository's root. What they make stands in target/.

# version: the library's version, which stands in the header alone.
version() {
    sed -n 's/^#define ZOPREDIL_VERSION "\(.*\)"$/\1/p' include/zopredil.h
}

# sum_of PATH..: one sum over the names and the bytes of all files under the paths, but for what rt keeps in folders out/.
sum_of() {
    find "$@" -type d -name out -prune -o -type f -exec sha256sum {} + | LC_ALL=C sort | sha256sum | cut -d ' ' -f 1
}

# below NAME: the crates that a crate stands on, and itself, one to a line
below() {
    awk -v name="$1" '
        { sub(/#.*/, ""); split($0, part, ":"); split(part[1], word, " "); if (word[1] != "") uses[word[1]] = part[2] }
        function visit(crate,    list, count, k) {
            if (!(crate in uses) || crate in seen) return
            seen[crate]
            count = split(uses[crate], list, " ")
            for (k = 1; k <= count; k++) visit(list[k])
            print crate
        }
        END { visit(name) }' crates.txt
}

# The archive of this repository, and beside it two sums: of what it was proved from, and its own.
own_archive=target/host/libzopredil.a
own_sums=target/host/libzopredil.sums

# archive_is_current: was the archive made from crates/ and crates.txt as they are? Each of their files counts: a
# definition or a proof that has changed is proved again.
archive_is_current() {
    [ -f "$own_archive" ] && [ -f "$own_sums" ] &&
        [ "$(cat "$own_sums")" = "$(sum_of crates crates.txt) $(sum_of "$own_archive")" ]
}

# find_archive: sets archive to the folder of libzopredil.a. The variable ZOPREDIL_LIB_DIR may name one that is built
# already; else it is target/host, and the archive is proved and built where it is not current.
find_archive() {
    if [ -n "${ZOPREDIL_LIB_DIR:-}" ]; then
        archive=$ZOPREDIL_LIB_DIR
        [ -f "$archive/libzopredil.a" ] || { echo "there is no libzopredil.a in $archive" >&2; exit 2; }
    else
        archive=target/host
        archive_is_current || tools/build-archive
    fi
}

# find_program: after find_archive, sets program to the program zopredil, which is built where it is not current: by
# cargo, offline. One that is current needs no cargo, and nothing is written.
find_program() {
    program=target/cli/release/zopredil
    made_of=$(sum_of cli/Cargo.toml cli/Cargo.lock cli/src cli/help include/zopredil.h \
        bindings/rust/Cargo.toml bindings/rust/build.rs bindings/rust/src "$archive/libzopredil.a")
    if [ ! -x "$program" ] || [ "$(cat target/cli/zopredil.sum 2>/dev/null)" != "$made_of" ]; then
        command -v cargo >/dev/null ||
            { echo "zopredil: there is no cargo on the PATH to build the program with" >&2; exit 2; }
        rm -f target/cli/zopredil.sum
        cargo build --quiet --offline --release --manifest-path cli/Cargo.toml --target-dir target/cli
        echo "$made_of" >target/cli/zopredil.sum
    fi
}
