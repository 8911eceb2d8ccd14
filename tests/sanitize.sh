#!/usr/bin/env bash
# Makes dumped calls of the archive from C, with every table and the record of new points a heap block of its exact size. Built with the sanitizers for addresses and
# undefined behaviour, which see the harness and what the archive hands to libc (the archive itself is not instrumented), and under
# valgrind, which sees every access of the archive to the heap, and results that depend on what was in a table before.
#   sanitize.sh [NETS]     so many nets of the series of tests/differential, a third as many with side counts, a tenth as many named
#                          nets and seam tests, and the calls with a vertex in many faces; those with long work tables are left out
set -eu
cd "$(dirname "$0")/.."
archive=crates/capi/out/libcapi.a
if [ ! -f "$archive" ]; then
    echo "there is no $archive; make it with: make"
    exit 1
fi
folder=$(mktemp -d)
trap 'rm -rf "$folder"' EXIT
differential() { cargo run --release --offline --quiet --manifest-path tests/differential/Cargo.toml -- "$@"; }
# harness NAME OPTION ..: the program of tests/sanitize/NAME.c
harness() {
    local name=$1
    shift
    cc -std=c11 -g -O1 -Wall -Wextra -Werror -pedantic "$@" "tests/sanitize/$name.c" "$archive"
}

differential --nets "${1:-5000}" --dump "$folder/calls"
differential --nets "${1:-5000}" --dump-seam-tests "$folder/seams"
echo "with -fsanitize=address,undefined:"
for name in calls seams; do
    harness "$name" -fsanitize=address,undefined -fno-sanitize-recover=all -o "$folder/sanitized"
    "$folder/sanitized" "$folder/$name"
done

if ! command -v valgrind >/dev/null; then
    echo "no valgrind here: skipped"
    exit 0
fi
echo "under valgrind:"
for name in calls seams; do
    harness "$name" -o "$folder/plain-$name"
    valgrind --quiet --error-exitcode=1 --leak-check=full "$folder/plain-$name" "$folder/$name"
done
# a stray access by the archive must be seen
differential --nets 20 --dump "$folder/few-calls"
differential --nets 500 --dump-seam-tests "$folder/few-seams"
for name in calls seams; do
    status=0
    valgrind --quiet --error-exitcode=99 --log-file=/dev/null "$folder/plain-$name" "$folder/few-$name" short || status=$?
    if [ "$status" -ne 99 ]; then
        echo "valgrind does not see a work table that is too short (exit status $status)"
        exit 1
    fi
done
echo "valgrind sees a work table that is one entry shorter than told"
