#!/usr/bin/env bash
# The benchmark. Compares refining and the check with straightforward C++ result by result, then measures both, the seam test, and OpenSubdiv where it is
# installed.
#   bench/run.sh [ARCHIVE]    ARCHIVE is one that `rt lib` made in crates/capi; without it, it is made first
set -euo pipefail
load=$(cut -d' ' -f1 /proc/loadavg)
archive=${1:+$(realpath "$1")}
cd "$(dirname "$0")/.."
if [ -z "$archive" ]; then
    (cd crates/capi && rt lib >/dev/null)
    archive=$PWD/crates/capi/out/libcapi.a
fi
out=target/bench
mkdir -p "$out"
warnings="-Wall -Wextra -Werror -pedantic"
plain="-O2"
# The flags with the fewest instructions and with the least time; callgrind takes no AVX-512, which `native` may have.
gcc_count="-O3 -march=x86-64-v3"
gcc_time="-O3 -march=native"
clang_count="-O3 -march=x86-64-v3"
clang_time="-O2 -march=native"
grep -qw avx2 /proc/cpuinfo || gcc_count=-O3 clang_count=-O3

# compile OBJECT SOURCE COMPILER FLAG ..
compile() {
    local object=$1 source=$2
    shift 2
    # shellcheck disable=SC2086
    "$@" -std=c++17 $warnings -c -o "$object" "bench/$source.cpp"
}

# build FOLDER COMPILER FLAG ..: the programs that compare and measure, with straightforward C++ built so
build() {
    local folder=$out/$1 source
    shift
    mkdir -p "$folder"
    for source in straight straight_check straight_split straight_letters; do
        compile "$folder/$source.o" "$source" "$@" || return 1
    done
    g++ -o "$folder/agree" "$folder"/straight*.o "$out"/{agree,samples}.o "$archive" &&
        g++ -o "$folder/refine" "$folder"/straight*.o "$out/refine.o" "$archive" &&
        g++ -o "$folder/check" "$folder"/straight*.o "$out/check.o" "$archive"
}

# build_clang: the same with the clang of the Rattle kit, which has no header files of its own; fails where there is none or it does not take the C++
build_clang() {
    local kit clang
    kit=$(realpath "$(command -v rt)")
    clang=${kit%/bin/rt}/toolchain/bin/clang
    [ -x "$clang" ] || return 1
    set -- "$clang" -x c++ -isystem "$(g++ -print-file-name=include)"
    # shellcheck disable=SC2086
    build clang-count "$@" $clang_count && build clang-time "$@" $clang_time && "$clang" --version | sed -n '1s/.*version //p'
}

# times COMPILER PROGRAM: lines for the tables
times() {
    "$out/$2" time | sed "s/^[a-z]*/& $1/"
}

# counts COMPILER PROGRAM: the same, of instructions; callgrind writes a file for each counted call. Without string instructions, for callgrind would count
# each byte that they write as one.
counts() {
    local i calls
    command -v valgrind >/dev/null || return 0
    rm -f "$out"/calls.*
    GLIBC_TUNABLES=glibc.cpu.x86_rep_stosb_threshold=0x7fffffff:glibc.cpu.x86_rep_movsb_threshold=0x7fffffff LD_BIND_NOW=1 \
        valgrind -q --tool=callgrind --callgrind-out-file="$out/calls" --toggle-collect=counted_call --dump-after=counted_call "$out/$2" count >"$out/rows"
    calls=$(wc -l <"$out/rows")
    for ((i = 1; i <= calls; i++)); do
        sed -n "s/^totals:/count $1/p" "$out/calls.$i"
    done | paste -d' ' - "$out/rows"
}

# measure PROGRAM: its table, with every build of C++
measure() {
    {
        counts g++ "gcc-count/$1"
        times g++ "gcc-time/$1"
        if [[ $builds == *clang* ]]; then
            counts clang "clang-count/$1"
            times clang "clang-time/$1"
        fi
    } | python3 bench/table.py "$1"
}

for source in agree samples refine check seam; do
    compile "$out/$source.o" "$source" g++ $plain
done
g++ -o "$out/seam" "$out/seam.o" "$archive"
# shellcheck disable=SC2086
build gcc-count g++ $gcc_count
# shellcheck disable=SC2086
build gcc-time g++ $gcc_time
builds="gcc-count gcc-time"
clang_text="is not there or does not take it: its columns are missing"
if clang_version=$(build_clang 2>"$out/clang.log"); then
    builds+=" clang-count clang-time"
    clang_text="$clang_version: $clang_count for instructions, $clang_time for times"
fi

counted="of one call after another one, by callgrind; memory cleared and copied by vector instructions"
command -v valgrind >/dev/null || counted="not counted, for valgrind is not installed"
machine="$(sed -n 's/^model name[^:]*: //p' /proc/cpuinfo | head -n 1), $(nproc) cores, $(uname -sm); load before: $load"
for build in $builds; do
    agreement=$("$out/$build/agree")
done

cat <<TEXT
Gedrovit benchmark, $(date +%F)
machine:   $machine
archive:   by rt lib, for every x86-64 processor
C++:       $(g++ --version | head -n 1): $gcc_count for instructions, $gcc_time for times
           the kit's clang $clang_text
agreement: all results are equal, count for count, in every build of C++:
           $agreement

REFINEMENT
Both sides check refusals 16 and 5 to 12, split faces with side counts, then make all rounds with exact arithmetic and one rounding for each coordinate, in
one thread. Gedrovit also checks the table lengths, allocates nothing and clears the work table at the end; C++ keeps its vectors from call to call.
Nets: rings of eight has 4,096 faces, every vertex in eight; strip is one row of 4,095 faces; fans of six has 4,080 faces, every vertex on the boundary and
in six; triangles are 1,365 with side counts, which become 4,095 quadrilaterals. Rows with "letters" make a letter for each refined vertex too.
The tension is 4 where the row names none. Both sides are given it in the call, and compute in the same way at every tension.
C++: "anew" builds the adjacency anew in each round, "carried" carries it over from the round before.
Tables: touched by a call before, not cleared between calls. Times: processor time, the best of 100 turns of all implementations in one process for each
compiler; calls on small nets are timed many at once.
Instructions: $counted.
Ratio: Gedrovit divided by the C++ before it, above 1 Gedrovit takes more; of times the median over 100 turns, each in the same turn.

TEXT
measure refine

cat <<TEXT
THE CHECK ALONE
Refusals 16 and 5 to 12; Gedrovit also checks the table lengths and clears 16 work numbers for each refined face. C++ sorts the half-edges by the vertex that
they leave, looks for a side among those of its vertex, and numbers the edges.
Nets: those above; an accepted grid of 4,032 faces whose vertices have other numbers; and refused ones, with the reason. Two hubs are opposite corners of all of
4,090 faces, which share nothing else; or of all of 4,096, which are a full ring at each. The fan has 4,095 faces. Random corners are of 64 vertices, 4,096 faces.
Tables, times, instructions and ratio: as above. With 3 and 6 rounds there is more to clear; C++ clears nothing.

TEXT
measure check

cat <<TEXT
THE SEAM TEST
Two nets, the second one the first turned over. Each has one mark, so that the segment runs round its whole boundary: on the strip, of 4,095 faces, through
every vertex, and no net has a longer one. The test checks both nets, then finds the segment in each and compares it. "both checks" are two calls of the
check with 0 rounds, on the same nets.
Figures are for each face of both nets. Tables, times and instructions: as above. Ratio: the seam test divided by both checks, in the same turn.

TEXT
{
    counts g++ seam
    times g++ seam
} | python3 bench/table.py seam

echo "OPENSUBDIV"
if ! echo '#include <opensubdiv/version.h>' | g++ -E -x c++ - >/dev/null 2>&1; then
    echo "not installed (Debian: libosd-dev)"
    exit 0
fi
# shellcheck disable=SC2086
g++ -std=c++17 $warnings $plain -o "$out/opensubdiv" bench/opensubdiv.cpp -losdCPU
version=$(echo 'OPENSUBDIV_VERSION_MAJOR.OPENSUBDIV_VERSION_MINOR.OPENSUBDIV_VERSION_PATCH' |
    g++ -E -P -x c++ -include opensubdiv/version.h - | tail -n 1 | tr -d ' ')
cat <<TEXT
OpenSubdiv $version, Far::TopologyRefiner (uniform) and Far::PrimvarRefiner, scheme Catmark, one thread, the library as installed, its templates by g++ with
$plain; nets of quadrilaterals at levels 3 and 6. "whole" makes and refines the topology, then the positions; "positions" makes positions alone, with the
topology kept.
It computes something else: Catmull-Clark subdivision, which is approximating (old vertices move), with positions in single precision. It serves many more
purposes (three schemes, creases, other data at vertices, adaptive refinement) and keeps the topology of all levels. Stencil tables, its quicker way to
refine one topology many times, are not measured. The results differ, so no ratio is given.
Tables: positions touched before; OpenSubdiv allocates the topology anew where it is made. Times and instructions as above.

TEXT
{
    counts g++ opensubdiv
    times g++ opensubdiv
} | python3 bench/table.py opensubdiv
