# The parts that the scripts of oracle/ and bench/ are built of, as shell functions. They are run from the
# repository's root. What they make stands in target/.
. tools/library.sh

# The files of the Rust that are used.
rust_files='dct_tokens.rs dequant.rs intra_predict.rs inverse_transform.rs macroblock.rs reconstruct.rs'

# take_rust FOLDER: copies the Rust's files to target/rust-src and says which they are. Copies and not links, so that no
# tool that follows the paths of a source file can write to the folder that was given.
take_rust() {
    rm -rf target/rust-src
    mkdir -p target/rust-src
    for file in $rust_files; do
        [ -f "$1/$file" ] || { echo "there is no $file in $1" >&2; exit 2; }
        cp "$1/$file" target/rust-src/
    done
    (cd target/rust-src && cksum $rust_files)
}

# build_rust OUT FLAG..: the Rust as OUT/libvp8.rlib. Its own warnings are not ours.
build_rust() {
    out=$1
    shift
    mkdir -p "$out"
    rustc --edition 2021 --crate-type rlib --crate-name vp8 --cap-lints allow -C opt-level=3 "$@" \
        oracle/src/vp8/lib.rs -o "$out/libvp8.rlib"
}

# build_reader OUT: the second reader of key frames and the second loop filter as OUT/libreader.rlib.
build_reader() {
    mkdir -p "$1"
    rustc --edition 2021 --crate-type rlib --crate-name reader -C opt-level=3 oracle/src/reader/lib.rs \
        -o "$1/libreader.rlib"
}

# build_judge OUT: what must be answered, and the data that is tried, as OUT/libjudge.rlib.
build_judge() {
    build_reader "$1"
    rustc --edition 2021 --crate-type rlib --crate-name judge -C opt-level=3 --extern vp8="$1/libvp8.rlib" \
        --extern reader="$1/libreader.rlib" oracle/src/judge/lib.rs -o "$1/libjudge.rlib"
}

# build_library OUT: the Rust crate over the archive as OUT/libzopredil.rlib.
build_library() {
    ZOPREDIL_VERSION=$(version) rustc --edition 2021 --crate-type rlib --crate-name zopredil -C opt-level=3 \
        -L native="$archive" -l static=zopredil bindings/rust/src/lib.rs -o "$1/libzopredil.rlib"
}

# build_program OUT NAME SOURCE CRATE..: the program OUT/NAME over the named crates of OUT.
build_program() {
    out=$1 name=$2 source=$3 externs=
    shift 3
    for crate in "$@"; do
        externs="$externs --extern $crate=$out/lib$crate.rlib"
    done
    rustc --edition 2021 --crate-name "$name" -C opt-level=3 -L "$out" $externs "$source" -o "$out/$name"
}

# build_bench FOLDER: the benchmark target/bench/bench. The Rust of FOLDER is built with plain -C opt-level=3.
build_bench() {
    find_archive
    take_rust "$1"
    build_rust target/bench
    build_judge target/bench
    build_library target/bench
    build_program target/bench bench bench/src/main.rs judge vp8 zopredil
}

# instructions NAME FUNCTION PROGRAM WORD..: what the program takes in the function for each of the things that it says it
# did, by valgrind's callgrind, whose own account stands in target/bench.
instructions() {
    command -v valgrind >/dev/null || { echo "there is no valgrind on the PATH" >&2; exit 2; }
    profile=target/bench/callgrind.$1 function=$2
    shift 2
    rm -f "$profile"
    did=$(valgrind --tool=callgrind --toggle-collect="$function" --callgrind-out-file="$profile" "$@" \
        2>"$profile.log") || { cat "$profile.log" >&2; exit 1; }
    total=$(sed -n 's/^totals: //p' "$profile")
    echo $((total / did))
}
