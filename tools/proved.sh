# Sourced by ./test, ./evening, ./night, ./install, ./jihfasul-table and bench/: proves and builds what a program needs, and says on standard error which
# crate of how many it is at. Programs are built into target/bin, the library for C into target/staticlib, whatever names the kit gives them.
# The functions but for print_help are called in the repository's top folder.

# whether a file is there and nothing in crates/ is newer, but for what the kit made there
is_current() {
    [ -f "$1" ] && [ -z "$(find crates crates.txt -path 'crates/*/out' -prune -o -type f -newer "$1" -print -quit)" ]
}

# the crates below one, in the order of crates.txt, which has each after those that it names
below() {
    tac crates.txt | awk -v crate="$1" '
        { sub(/#.*/, ""); name = $1; sub(/:.*/, "", name); deps = $0; sub(/^[^:]*:?/, "", deps) }
        NF && (name == crate || name in wanted) { if (name != crate) print name; n = split(deps, dep, " "); for (i = 1; i <= n; i++) wanted[dep[i]] }' | tac
}

# prove CRATE COMMAND..: proves the crates below, and then runs the command that proves and builds this one, each in its crate's folder
prove() {
    local crate=$1 log status=0 count=0 all one
    shift
    log=$(mktemp)
    all=$(($(below "$crate" | wc -l) + 1))
    echo "Checking the proofs of $all crates; the first time takes a while." >&2
    for one in $(below "$crate") "$crate"; do
        count=$((count + 1))
        echo "  crate $count of $all: $one" >&2
        if [ "$one" = "$crate" ]; then
            (cd "crates/$one" && "$@") >"$log" 2>&1 || status=$?
        else
            (cd "crates/$one" && rt check) >"$log" 2>&1 || status=$?
        fi
        if [ "$status" -ne 0 ]; then
            cat "$log" >&2
            break
        fi
    done
    rm -f "$log"
    return "$status"
}

# the static library as C callers link it, which the kit names after the crate of its exports
library_file=target/staticlib/libnode.a
take_library() {
    mkdir -p target/staticlib && cp crates/node_c/out/libnode_c.a "$library_file"
}

# the static library, unless JIHFASUL_LIB_DIR names the folder of another one
prove_library() {
    if [ -z "${JIHFASUL_LIB_DIR:-}" ] && ! is_current "$library_file"; then
        prove node_c rt lib && take_library
    fi
}

# a program that was built, as target/bin/NAME
take_program() {
    mkdir -p target/bin && cp "crates/$1/out/$1" "target/bin/$1"
}

# a program; it is built by running it, so it is run once with no arguments over an empty input
prove_program() {
    if ! is_current "target/bin/$1"; then
        prove "$1" rt run </dev/null && take_program "$1"
    fi
}

# prints what stands at the head of a command's file
print_help() {
    sed -n '2,/^set /s/^# \{0,1\}//p' "$1"
}
