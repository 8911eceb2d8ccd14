#!/usr/bin/env bash
# The whole test: `rt ci`, then the tests outside Rattle on what it built. The last line is that of `rt ci` if all of them passed; otherwise it counts the
# failures, and the exit status is not 0. A must-fail edit that `rt ci` calls bad, which fails nothing there, fails here.
set -u
cd "$(dirname "$0")" || exit 1

pinned=$(cat kit.txt)
found=$(rt version 2>/dev/null || echo "no kit")
if [ "$found" != "$pinned" ]; then
    echo "note: this tree was last proved with the kit '$pinned'; this machine has '$found'. A failure below may come from the difference."
fi

scratch=$(mktemp -d)
trap 'rm -rf "$scratch"' EXIT
trap 'kill $(jobs -p) 2>/dev/null; exit 130' INT TERM
log=$scratch/ci
touch "$scratch/started"
rt ci 2>&1 | tee "$log" | sed '$d'
proved=${PIPESTATUS[0]}
last=$(tail -n 1 "$log")
passed=$(sed -nE 's/^([0-9]+) passed, [0-9]+ failed$/\1/p' <<<"$last")
failed=$(sed -nE 's/^[0-9]+ passed, ([0-9]+) failed$/\1/p' <<<"$last")
if [ -z "$passed" ]; then
    echo "$last"
    echo "rt ci ended without its closing line (exit status $proved)"
    echo "0 passed, 1 failed"
    exit 1
fi
# ./refine takes the program that was built of the files as they stood when `rt ci` began
[ "$proved" -ne 0 ] || { mkdir -p target && touch -r "$scratch/started" target/refine.built; }

# run NAME COMMAND ..: one more test; the file `failures` has the names of those that fail
failures=$scratch/failures
: >"$failures"
run() {
    local name=$1
    shift
    echo "== $name"
    if ! "$@"; then
        echo "$name: FAILED"
        echo "$name" >>"$failures"
    fi
}

cargo_tests() {
    local verb=$1 manifest=$2
    shift 2
    cargo "$verb" --release --offline --quiet --manifest-path "$manifest" "$@"
}

program_lane() {
    run "reference implementation" cargo_tests test tests/Cargo.toml
    run "definitions against the reference, a short run" python3 tests/definitions.py --short
    run "program against the reference" python3 tests/program.py
    run "the script ./refine" python3 tests/script.py
    run "the converter" python3 tests/convert.py
    run "examples and pictures" python3 tests/pictures.py
}

archive_lane() {
    run "against the reference through the C interface" cargo_tests run tests/differential/Cargo.toml
    run "calls from C under sanitizers and valgrind" bash tests/sanitize.sh
    run "the package for makers" bash tests/package.sh
}

# Where `rt ci` passes, its line 'rt: ok; ..; must-fail edits: N refused, N bad; ..' tells of edits that say nothing; without any, it has no 'N bad'.
good_edits() {
    [ "$proved" -ne 0 ] || { grep -q '^rt: ok; ' "$log" && ! grep -E '^rt: ok; .*, [1-9][0-9]* bad(;|$)' "$log"; }
}

archive() {
    (cd crates/capi && rt lib)
}

# lane NAME: the tests of one lane in the background; what they print is shown whole when the last of them has ended
lane() {
    {
        "$1" >"$scratch/$1" 2>&1
        cat "$scratch/$1"
    } &
}

# both lanes need the archive, and ./refine, which finds that `rt ci` has built the program
run "no must-fail edit is bad" good_edits
run "documents agree with the tree" python3 tests/documents.py
run "archive for C" archive
lane program_lane
lane archive_lane
wait

more=$(wc -l <"$failures")
if [ "$proved" -ne 0 ] || [ "$failed" -ne 0 ] || [ "$more" -ne 0 ]; then
    [ "$failed" -eq 0 ] && [ "$more" -eq 0 ] && more=1
    [ "$more" -eq 0 ] || sed 's/^/failed: /' "$failures"
    echo "$passed passed, $((failed + more)) failed"
    exit 1
fi
echo "$last"
