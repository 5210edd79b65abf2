# Builds the host's programs with rustc; read by the scripts beside it, after they set `host`.
#   rust_options "$@"      takes --sources DIR and --crates DIR off the arguments; the others are left in $rest
#   rust_library           the Rust's four files, with docs/cyrs-star.patch, and the stand-ins, compiled into target/host
#   rust_program NAME ..   a program of src/, linked with some archives, compiled into target/host
#   rust_timed             before these two: optimized as far as rustc can, into target/bench
#   archive CRATE          proves a crate and writes its archive, if it isn't there or code is newer
out=$host/../target/host
sources=$host/../../shared
crates=
flags=
link_flags=

rust_timed() {
    out=$host/../target/bench
    flags="-C codegen-units=1 --cfg timed"
    link_flags="-C codegen-units=1 -C lto=fat"
}

rust_options() {
    rest=
    while [ $# -gt 0 ]; do
        case $1 in
            --sources) sources=${2:?$1 DIR}; shift ;;
            --crates) crates=${2:?$1 DIR}; shift ;;
            *) rest="$rest $1" ;;
        esac
        shift
    done
}

# Puts a file of cyrs, from a checkout or from a folder of its files as texts, under its own name into a folder.
take() {
    flat=$sources/src--$(echo "$1" | sed 's,/,--,g').txt
    if [ -f "$sources/$1" ]; then cp "$sources/$1" "$2"
    elif [ -f "$flat" ]; then cp "$flat" "$2/$(basename "$1")"
    else
        echo "$0: no $1 in $sources" >&2
        exit 2
    fi
    chmod u+w "$2/$(basename "$1")"
}

# Applies the patch to the copies of cyrs's files in a folder; its lines must be where they were.
patched() {
    sed 's,crates/cyrs-hir/src/,cyrs_hir/,; s,crates/cyrs-sema/src/,cyrs_sema/,' "$host/../docs/cyrs-star.patch" > "$1/patch"
    if ! patch -s -p1 -F0 --no-backup-if-mismatch -d "$1" < "$1/patch" >&2; then
        echo "$0: docs/cyrs-star.patch can't be applied to what is in $sources" >&2
        exit 2
    fi
}

# rust NAME FILE CRATE..: a library from a file and the crates that it uses
rust() {
    name=$1 file=$2
    shift 2
    for used; do
        shift
        set -- "$@" --extern "$used"
    done
    rustc --edition 2024 -O $flags --cap-lints allow --crate-type rlib --crate-name "$name" --out-dir "$out" -L "$out" "$@" "$file"
}

# The real indexmap from a folder with the sources of indexmap 1 and hashbrown, or its stand-in.
indexmap() {
    if [ -z "$crates" ]; then
        rust indexmap "$out/from/indexmap.rs"
        return
    fi
    rustc --edition 2021 -O $flags --cap-lints allow --crate-type rlib --crate-name hashbrown --out-dir "$out" --cfg 'feature="raw"' "$crates"/hashbrown-*/src/lib.rs
    rustc --edition 2021 -O $flags --cap-lints allow --crate-type rlib --crate-name indexmap --out-dir "$out" -L "$out" --cfg has_std --extern "hashbrown=$out/libhashbrown.rlib" "$crates"/indexmap-*/src/lib.rs
}

rust_library() {
    new=$out/new.$$
    trap 'rm -rf "$new"' EXIT
    mkdir -p "$new"
    cp -R "$host/standins/." "$new"
    cp -R "$host/generator" "$host/src" "$new"
    take crates/cyrs-hir/src/lib.rs "$new/cyrs_hir"
    take crates/cyrs-hir/src/scope.rs "$new/cyrs_hir"
    take crates/cyrs-sema/src/resolve.rs "$new/cyrs_sema"
    take crates/cyrs-sema/src/kinds.rs "$new/cyrs_sema"
    patched "$new"
    echo "$crates" > "$new/crates"
    if [ -f "$out/built" ] && diff -r "$new" "$out/from" > /dev/null; then return; fi
    find "$out" -maxdepth 1 -type f -exec rm -f {} +
    rm -rf "$out/from"
    mv "$new" "$out/from"
    rust generator "$out/from/generator/lib.rs"
    rust smol_str "$out/from/smol_str.rs"
    indexmap
    rust cyrs_syntax "$out/from/cyrs_syntax.rs"
    rust cyrs_diag "$out/from/cyrs_diag.rs" cyrs_syntax
    rust cyrs_hir "$out/from/cyrs_hir/lib.rs" cyrs_syntax smol_str indexmap
    rust cyrs_sema "$out/from/cyrs_sema/lib.rs" cyrs_diag cyrs_hir smol_str indexmap
    rust theirs "$out/from/src/theirs.rs" cyrs_diag cyrs_hir cyrs_sema smol_str
    rust ours "$out/from/src/ours.rs"
    touch "$out/built"
}

# Whether one of some files is newer than the first.
newer() {
    than=$1
    shift
    for file; do
        if [ "$file" -nt "$than" ]; then return 0; fi
    done
    return 1
}

rust_program() {
    name=$1
    shift
    if [ -x "$out/$name" ] && ! newer "$out/$name" "$@"; then return; fi
    for archive; do
        shift
        set -- "$@" -C "link-arg=$archive"
    done
    rustc --edition 2024 -O $link_flags --crate-name "$name" -o "$out/$name" -L "$out" --extern generator --extern theirs --extern ours \
        --extern cyrs_hir "$@" "$out/from/src/$name.rs"
}

# Whether a file isn't there, or code is newer.
stale() {
    [ ! -f "$1" ] || [ -n "$(find "$host/../crates" -name '*.rt' -newer "$1" | head -n 1)" ]
}

archive() {
    if stale "$host/../target/staticlib/lib$1.a"; then "$host/../tools/build" archive "$1" >&2; fi
}
