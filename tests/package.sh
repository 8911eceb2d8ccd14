#!/usr/bin/env bash
# Installs the package into a temporary folder and builds programs on it, as a maker would. A line for each check; the exit status is 1 if one failed.
set -u
root=$(cd "$(dirname "$0")/.." && pwd)
scratch=$(mktemp -d)
trap 'rm -rf "$scratch"' EXIT
prefix=$scratch/installed
version=$(sed -n 's/^#define GEDROVIT_VERSION "\(.*\)"$/\1/p' "$root/package/include/gedrovit.h")
strict=(-Wall -Wextra -Werror -pedantic)
c=("${CC:-cc}" -std=c11 "${strict[@]}" -O2 -fPIE -pie -Wl,--fatal-warnings,-z,text)
cxx=("${CXX:-c++}" -std=c++17 "${strict[@]}" -O2 -fPIE -pie -Wl,--fatal-warnings,-z,text)
failed=0

# check NAME COMMAND ..: runs a command; what it writes is shown only if it fails
check() {
    local name=$1
    shift
    if "$@" >"$scratch/log" 2>&1; then
        echo "ok      $name"
    else
        echo "FAILED  $name"
        sed 's/^/        /' "$scratch/log"
        failed=$((failed + 1))
    fi
}

# have TOOL: whether a tool is here; a line says that its checks are skipped if not
have() {
    command -v "$1" >/dev/null || { echo "skipped what needs $1: it is not installed"; false; }
}

# header_alone HEADER COMPILER ..: the header compiles by itself, also without its functions
header_alone() {
    echo "#include <$1>" >"$scratch/alone.c"
    for only in "" -DGEDROVIT_TYPES_ONLY; do
        "${@:2}" $only "${strict[@]}" -Wconversion -Wshadow -fsyntax-only -I "$root/package/include" "$scratch/alone.c" || return
    done
}

# by the chosen compilers, and by gcc and clang where they are installed
headers_alone() {
    for compiler in "${CC:-cc}" gcc clang; do
        command -v "$compiler" >/dev/null || continue
        header_alone gedrovit.h "$compiler" -std=c11 -x c || return
    done
    for compiler in "${CXX:-c++}" g++ clang++; do
        command -v "$compiler" >/dev/null || continue
        header_alone gedrovit.h "$compiler" -std=c++17 -x c++ && header_alone gedrovit.hpp "$compiler" -std=c++17 -x c++ || return
    done
}

make_package() {
    make -C "$root" --no-print-directory "$@"
}

tree() {
    (cd "$1" && find . -type f | LC_ALL=C sort)
}

installed_files() {
    make_package install PREFIX="$prefix" && diff "$root/tests/package/installed.txt" <(tree "$prefix")
}

staged_files() {
    make_package install DESTDIR="$scratch/stage" PREFIX=/opt/net && diff "$root/tests/package/installed.txt" <(tree "$scratch/stage/opt/net") \
        && make_package uninstall DESTDIR="$scratch/stage" PREFIX=/opt/net && diff /dev/null <(tree "$scratch/stage")
}

# Without the kit, and without an archive, make says what is missing.
no_kit() {
    mkdir -p "$scratch/no-kit/tools" "$scratch/no-kit/bin" && cp "$root/Makefile" "$root/crates.txt" "$scratch/no-kit/" && cp "$root/tools/crates_under.awk" "$scratch/no-kit/tools/" \
        && mkdir "$scratch/no-kit/package" && cp -r "$root/package/include" "$scratch/no-kit/package/" && for tool in sh sed awk find; do ln -s "$(command -v "$tool")" "$scratch/no-kit/bin/"; done
    ! env PATH="$scratch/no-kit/bin" "$(command -v make)" -C "$scratch/no-kit" >"$scratch/said" 2>&1 && cat "$scratch/said" && grep -q 'Rattle kit, whose command rt was not found' "$scratch/said"
}

# What make offers: its help names every target, a target that is none is an error, and nothing is made of a script by its name.
targets() {
    local target
    make_package help >"$scratch/help" && grep -q LIBDIR "$scratch/help" || return
    for target in $(sed -n 's/^\.PHONY: all \(.*\) always$/\1/p' "$root/Makefile"); do
        grep -q "^make .*\b$target\b" "$scratch/help" || { echo "no help on $target"; return 1; }
    done
    diff <(printf './test.sh\n') <(make_package -n check) && diff <(printf './test.sh\n') <(make_package -n test) \
        && ! make_package -n tools/pictures >"$scratch/said" 2>&1 && grep -q 'No rule to make target' "$scratch/said" && [ ! -e "$root/test" ]
}

# The archive defines no names but its own, and needs nothing but the C library's memory functions.
symbols() {
    diff <(printf 'gedrovit_%s\n' check refine share_seam sizes_for version "version_${version//./_}") <(nm -g --defined-only -j "$prefix/lib/libgedrovit.a" | grep -v ':$' | grep . | LC_ALL=C sort -u) \
        && ! nm -g --undefined-only -j "$prefix/lib/libgedrovit.a" | grep -v ':$' | grep . | grep -vxE 'mem(cpy|move|set)'
}

# The header's version is that of the other files; numbers.py holds the sources to it.
versions() {
    grep -qxF "Version: $version" "$prefix/lib/pkgconfig/gedrovit.pc" \
        && grep -qxF "set(PACKAGE_VERSION \"$version\")" "$prefix/lib/cmake/gedrovit/gedrovit-config-version.cmake"
}

flags() {
    PKG_CONFIG_PATH=$prefix/lib/pkgconfig pkg-config "$@" gedrovit
}

# outputs FOLDER: the examples built there write what is stored, also where a call is refused
outputs() {
    diff "$root/tests/nets/cases/paper-raised-centre.out" <("$1/panel") \
        && diff "$root/tests/package/triangles.out" <("$1/triangles" && "$1/triangles" 1) \
        && diff "$root/tests/package/letters.out" <("$1/letters" && "$1/letters" 2 && "$1/letters" 1 24) \
        && diff "$root/tests/package/tension.out" <("$1/tension" && "$1/tension" 2) \
        && diff "$root/tests/package/seam.out" <("$1/seam") \
        && ! "$1/panel" 7 2>"$1/refused" && diff <(echo 'panel: refusal 1, place 0: more than 6 rounds') "$1/refused" \
        && ! "$1/tension" 5 2>"$1/refused" && diff <(echo 'tension: refusal 16, place 0: the tension is above 4') "$1/refused"
}

by_pkg_config() {
    local to=$scratch/pkg-config
    rm -rf "$to" && mkdir "$to" \
        && "${c[@]}" $(flags --cflags) "$root/package/examples/panel.c" $(flags --libs) -o "$to/panel" \
        && "${c[@]}" $(flags --cflags) "$root/package/examples/triangles.c" $(flags --libs) -o "$to/triangles" \
        && "${c[@]}" $(flags --cflags) "$root/package/examples/letters.c" $(flags --libs) -o "$to/letters" \
        && "${c[@]}" $(flags --cflags) "$root/package/examples/tension.c" $(flags --libs) -o "$to/tension" \
        && "${cxx[@]}" $(flags --cflags) "$root/package/examples/seam.cpp" $(flags --libs) -o "$to/seam" \
        && outputs "$to"
}

by_cmake() {
    local to=$scratch/cmake
    rm -rf "$to" && cmake -S "$root/package/examples" -B "$to" -DCMAKE_PREFIX_PATH="$prefix" -DCMAKE_C_FLAGS="${strict[*]}" -DCMAKE_CXX_FLAGS="${strict[*]}" \
        && cmake --build "$to" && outputs "$to"
}

# exports_nothing FILE: a plug-in exports its own function and none of the archive's
exports_nothing() {
    diff <(echo plugin_reason) <(nm -D --defined-only -j "$1" | grep -E 'gedrovit|plugin')
}

plugin_by_pkg_config() {
    "${CC:-cc}" -std=c11 -fPIC -shared $(flags --cflags) "$root/tests/package/plugin.c" $(flags --libs) -o "$scratch/by-pkg-config.so" && exports_nothing "$scratch/by-pkg-config.so"
}

plugin_by_cmake() {
    mkdir -p "$scratch/module" && cp "$root/tests/package/plugin.c" "$scratch/module/" \
        && printf '%s\n' 'cmake_minimum_required(VERSION 3.16)' 'project(module C)' 'find_package(gedrovit REQUIRED)' 'add_library(module MODULE plugin.c)' \
            'target_link_libraries(module PRIVATE gedrovit::gedrovit)' >"$scratch/module/CMakeLists.txt" \
        && cmake -S "$scratch/module" -B "$scratch/module/build" -DCMAKE_PREFIX_PATH="$prefix" && cmake --build "$scratch/module/build" \
        && exports_nothing "$scratch/module/build/libmodule.so"
}

# cmake_finds WANTED [OPTION ..]: whether find_package finds the package at this version
cmake_finds() {
    rm -rf "$scratch/find" && mkdir "$scratch/find" \
        && printf 'cmake_minimum_required(VERSION 3.19)\nproject(find NONE)\nfind_package(gedrovit %s REQUIRED)\n' "$1" >"$scratch/find/CMakeLists.txt" \
        && cmake -S "$scratch/find" -B "$scratch/find/build" -DCMAKE_PREFIX_PATH="$prefix" "${@:2}"
}

# of version 0.8.0, say
cmake_versions() {
    local major minor patch
    IFS=. read -r major minor patch <<<"$version"
    local series=$major.$minor next=$major.$((minor + 1)) later=$major.$minor.$((patch + 1))
    cmake_finds "$version EXACT" && cmake_finds "$series" && ! cmake_finds "$later" && ! cmake_finds "$next" && ! cmake_finds 99.0 \
        && cmake_finds "$series...<$next" && cmake_finds "0.0...$version" && ! cmake_finds "$series...<$version" && ! cmake_finds "$later...<$next" \
        && ! cmake_finds "0.0...<$series"
}

cmake_processors() {
    local there=(-DCMAKE_SYSTEM_NAME=Linux -DCMAKE_SYSTEM_PROCESSOR)
    cmake_finds "$version" "${there[@]}=x86_64" && ! cmake_finds "$version" "${there[@]}=aarch64" && ! cmake_finds "$version" "${there[@]}=i686"
}

# An archive in another folder than lib is found.
other_libdir() {
    local to=$scratch/multiarch
    make_package install PREFIX="$to" LIBDIR=lib/x86_64-linux-gnu && [ -f "$to/lib/x86_64-linux-gnu/libgedrovit.a" ] \
        && "${c[@]}" $(PKG_CONFIG_PATH=$to/lib/x86_64-linux-gnu/pkgconfig pkg-config --cflags gedrovit) "$root/package/examples/panel.c" \
            $(PKG_CONFIG_PATH=$to/lib/x86_64-linux-gnu/pkgconfig pkg-config --libs gedrovit) -o "$scratch/multiarch-panel" \
        && make_package uninstall PREFIX="$to" LIBDIR="$to/lib/x86_64-linux-gnu" && diff /dev/null <(tree "$to")
}

# program NAME SOURCE COMPILER ..: builds a test program on the installed package
program() {
    "${@:3}" -I "$prefix/include" "$root/tests/package/$2" -L "$prefix/lib" -lgedrovit -pthread -o "$scratch/$1"
}

vectors() {
    program vectors vectors.cpp "${cxx[@]}" && "$scratch/vectors"
}

constants() {
    program constants constants.c "${c[@]}" && "$scratch/constants"
}

# edited FOLDER EDIT: the headers in this folder with a sed command done to gedrovit.h, which changes it
edited() {
    rm -rf "$1" && mkdir "$1" && cp "$prefix"/include/* "$1/" && sed -i -E "$2" "$1/gedrovit.h" && ! cmp -s "$1/gedrovit.h" "$prefix/include/gedrovit.h"
}

# wrong_header EDIT: the test of the constants fails with this edit
wrong_header() {
    edited "$scratch/wrong" "$1" && "${CC:-cc}" -std=c11 -w -I "$scratch/wrong" "$root/tests/package/constants.c" -L "$prefix/lib" -lgedrovit -o "$scratch/wrong/constants" || return
    if "$scratch/wrong/constants" >/dev/null; then
        echo "not seen: $1"
        return 1
    fi
}

wrong_constants() {
    for wrong in MAX_ROUNDS/5 MAX_ROUNDS/7 MAX_VERTICES/8190 MAX_VERTICES/8194 MAX_FACES/4095 MAX_FACES/5000 MAX_REFINED_FACES/262143 MAX_REFINED_FACES/266240 \
        MAX_COORDINATE/1048575 MAX_COORDINATE/1048577 MAX_RING/7 MAX_RING/9 MAX_FAN/5 MAX_FAN/7 MIN_SIDES/2 MIN_SIDES/4 MAX_SIDES/7 MAX_SIDES/9 MAX_TALLY/3999999999 MAX_TALLY/4000000001 \
        MAX_TENSION/3 MAX_TENSION/5 DEFAULT_TENSION/0 DEFAULT_TENSION/3; do
        wrong_header "s/(define GEDROVIT_${wrong%/*}) .*/\\1 ${wrong#*/}/" || return
    done
    local reason=1 next
    for next in {2..12} {14..18}; do
        wrong_header "s/^(    GEDROVIT_.* = )$reason,/\\1@,/; s/^(    GEDROVIT_.* = )$next(,?)$/\\1$reason\\2/; s/@/$next/" || return
        reason=$next
    done
    local letters=VABMSCDE i
    for i in {0..6}; do
        wrong_header "s/^(    GEDROVIT_LETTER_.* = ')${letters:i:1}'/\\1@'/; s/^(    GEDROVIT_LETTER_.* = ')${letters:i+1:1}'/\\1${letters:i:1}'/; s/@/${letters:i+1:1}/" || return
    done
}

# not_linked SYMBOL COMPILER ..: a program compiled with the headers in $scratch/other does not link, for want of this symbol
not_linked() {
    ! "${@:2}" -I "$scratch/other" "$root/tests/package/flat.c" -x none -L "$prefix/lib" -lgedrovit -o "$scratch/flat" 2>"$scratch/said" && grep -qw "$1" "$scratch/said"
}

# A header and an archive of different versions do not meet, whatever the compiler leaves out: another patch, and the version before the tension.
version_guard() {
    local small=(-O2 -ffunction-sections -fdata-sections -Wl,--gc-sections) other major minor patch symbol
    for other in "${version%.*}.999" 0.5.1; do
        IFS=. read -r major minor patch <<<"$other"
        symbol=gedrovit_version_${other//./_}
        edited "$scratch/other" "s/^(#define GEDROVIT_VERSION_MAJOR) .*/\\1 $major/; s/^(#define GEDROVIT_VERSION_MINOR) .*/\\1 $minor/; s/^(#define GEDROVIT_VERSION_PATCH) .*/\\1 $patch/" || return
        for compiler in "${CC:-cc} -std=c11 -x c" "${CXX:-c++} -std=c++17 -x c++"; do
            $compiler "${strict[@]}" "${small[@]}" -I "$prefix/include" "$root/tests/package/flat.c" -x none -L "$prefix/lib" -lgedrovit -o "$scratch/flat" && "$scratch/flat" \
                && not_linked "$symbol" $compiler && not_linked "$symbol" $compiler "${small[@]}" && not_linked "$symbol" $compiler -O2 -flto || return
        done
    done
}

# A source with the types alone needs no archive.
types_only() {
    printf '#define GEDROVIT_TYPES_ONLY\n#include <gedrovit.h>\nint main(void) { return gedrovit_reason_text(GEDROVIT_ACCEPTED)[0] == 0; }\n' >"$scratch/types.c"
    "${c[@]}" -I "$prefix/include" "$scratch/types.c" -o "$scratch/types" && "$scratch/types"
}

# A source that was written for tables without letters compiles as it is, and asks for none; with the field set it asks. In C and in C++.
old_source() {
    printf '#include <gedrovit.h>\n%s\n{\n    gedrovit_tables t = gedrovit_tables_of(NULL, 0, NULL, 0, NULL, 0, NULL, 0);\n%s\n}\n' \
        'int main(void)' '    return t.letters != NULL || t.letters_length != 0;' >"$scratch/old.c"
    for compiler in "${CC:-cc} -std=c11 -x c" "${CXX:-c++} -std=c++17 -x c++"; do
        $compiler "${strict[@]}" -I "$prefix/include" "$scratch/old.c" -x none -L "$prefix/lib" -lgedrovit -o "$scratch/old" && "$scratch/old" || return
    done
}

# Programs of version 0.5.1, which know of no tension, compile as they are and get the points that 0.5.1 gave.
old_points() {
    local maker=$scratch/maker
    ! grep -i tension "$root"/tests/package/old_points.* && mkdir -p "$maker/src" && cp "$root/tests/package/old_points.rs" "$maker/src/main.rs" \
        && printf '[package]\nname = "maker"\nversion = "1.0.0"\nedition = "2021"\n[dependencies]\ngedrovit.path = "%s"\n[workspace]\n' "$root/package/rust" >"$maker/Cargo.toml" \
        && program old-points-c old_points.c "${c[@]}" && diff "$root/tests/package/old_points.out" <("$scratch/old-points-c") \
        && program old-points-c++ old_points.cpp "${cxx[@]}" && diff "$root/tests/package/old_points.out" <("$scratch/old-points-c++") \
        && diff "$root/tests/package/old_points.out" <(GEDROVIT_LIB_DIR="$prefix/lib" CARGO_TARGET_DIR="$maker/target" cargo run --quiet --offline --manifest-path "$maker/Cargo.toml")
}

# Calls of the archive's functions as version 0.5.1 had them do not compile, in C and in C++.
no_tension() {
    printf '#include <gedrovit.h>\nuint32_t f(gedrovit_tally *, int32_t *, uint32_t *, uint8_t *);\n%s\n{\n    return\n%s\n%s\n}\n' 'uint32_t f(gedrovit_tally *t, int32_t *p, uint32_t *n, uint8_t *b)' \
        'gedrovit_refine(t, 1, p, 12, n, 4, b, 0, b, 4, TENSION p, 48, n, 16, b, 16, false, b, 0, n, 64).reason +' 'gedrovit_check(1, p, 12, n, 4, b, 0, b, 4, TENSION 48, 16, 16, false, 0, n, 64).reason;' >"$scratch/flat-call.c"
    for compiler in "${CC:-cc} -std=c11 -x c" "${CXX:-c++} -std=c++17 -x c++"; do
        $compiler "${strict[@]}" -fsyntax-only -I "$prefix/include" -DTENSION=4, "$scratch/flat-call.c" \
            && ! $compiler -w -fsyntax-only -I "$prefix/include" -DTENSION= "$scratch/flat-call.c" 2>"$scratch/said" \
            && grep -q 'flat-call.c:6:.*error' "$scratch/said" && grep -q 'flat-call.c:7:.*error' "$scratch/said" || return
    done
}

# A refining call without the record of new points does not compile, in C and in C++.
no_record() {
    local made='gedrovit_report made(gedrovit_tally *tally, const gedrovit_net *net, const gedrovit_tables *tables)'
    printf '#include <gedrovit.h>\n%s;\n%s\n{\n    (void)tally;\n    return gedrovit_refine_net(RECORD 1, net, tables);\n}\n' "$made" "$made" >"$scratch/call.c"
    for compiler in "${CC:-cc} -std=c11 -x c" "${CXX:-c++} -std=c++17 -x c++"; do
        $compiler -w -fsyntax-only -I "$prefix/include" -DRECORD=tally, "$scratch/call.c" \
            && ! $compiler -w -fsyntax-only -I "$prefix/include" -DRECORD= "$scratch/call.c" 2>"$scratch/said" && grep -q 'call.c:6:.*error' "$scratch/said" || return
    done
}

# plugin NAME INCLUDES LIBRARIES LANGUAGE [WORD ..]: a plug-in; nothing is inlined
plugin() {
    local compiler=("${CC:-cc}" -std=c11 -x c)
    [ "$4" = c ] || compiler=("${CXX:-c++}" -std=c++17 -x c++)
    "${compiler[@]}" "${strict[@]}" -O0 -fPIC -shared -I "$2" "${@:5}" "$root/tests/package/plugin.c" -x none -L "$3" -lgedrovit -o "$scratch/$1.so"
}

# own_archives LANGUAGE [WORD ..]: two plug-ins in one host call their own archives, whichever is loaded first
own_archives() {
    plugin ours "$prefix/include" "$prefix/lib" "$@" && plugin theirs "$scratch/other" "$scratch/other" "$@" \
        && "$scratch/host" "$scratch/ours.so" 1 "$scratch/theirs.so" 99 && "$scratch/host" "$scratch/theirs.so" 99 "$scratch/ours.so" 1
}

# Of another version and of the same; by hidden functions or by --exclude-libs alone. With neither they do not.
plugins() {
    "${c[@]}" "$root/tests/package/host.c" -ldl -o "$scratch/host" || return
    for patch in 999 "${version##*.}"; do
        rm -rf "$scratch/other" && cp -r "$prefix/include" "$scratch/other" && sed -i -E "s/^(#define GEDROVIT_VERSION_PATCH) .*/\\1 $patch/" "$scratch/other/gedrovit.h" \
            && "${CC:-cc}" -std=c11 "${strict[@]}" -fPIC -I "$scratch/other" -c "$root/tests/package/other_archive.c" -o "$scratch/other/archive.o" \
            && ar rcs "$scratch/other/libgedrovit.a" "$scratch/other/archive.o" || return
        for language in c c++; do
            own_archives "$language" && own_archives "$language" -DGEDROVIT_API= -Wl,--exclude-libs,libgedrovit.a || return
        done
    done
    ! own_archives c -DGEDROVIT_API=
}

stack() {
    program stack stack.c "${c[@]}" -Wl,-z,lazy && "$scratch/stack" "$root"/tests/nets/cases/*.txt
}

# A shared object with the archive in it, as a plug-in would have.
shared_object() {
    "${CC:-cc}" -shared -Wl,--fatal-warnings,-z,text,-z,defs -Wl,--whole-archive "$prefix/lib/libgedrovit.a" -Wl,--no-whole-archive -o "$scratch/plugin.so"
}

# rust WORDS ..: cargo on the wrapper crate; WORDS may begin with assignments
rust() {
    env -u GEDROVIT_LIB_DIR -u PKG_CONFIG_PATH CARGO_TARGET_DIR="$root/target/cargo" "$@" --offline --locked --manifest-path "$root/package/rust/Cargo.toml"
}

# rust_links FOLDER [ASSIGNMENT]: the build takes the archive from this folder
rust_links() {
    rust "${@:2}" cargo build -vv >"$scratch/said" 2>&1 && grep -F "rustc-link-search=native=$1" "$scratch/said" || ! cat "$scratch/said"
}

# Without an archive the build fails and says where it looked and how to name one.
rust_refused() {
    ! rust GEDROVIT_LIB_DIR="$scratch" cargo build 2>"$scratch/said" && grep -F "not found in $scratch: name the folder of libgedrovit.a" "$scratch/said"
}

# The archive of another version does not link.
rust_guard() {
    mkdir -p "$scratch/rust" && sed -E 's/^(#define GEDROVIT_VERSION_PATCH) .*/\1 999/' "$prefix/include/gedrovit.h" >"$scratch/rust/gedrovit.h" \
        && "${CC:-cc}" -std=c11 -I "$scratch/rust" -c "$root/tests/package/other_archive.c" -o "$scratch/rust/archive.o" && ar rcs "$scratch/rust/libgedrovit.a" "$scratch/rust/archive.o" \
        && ! rust GEDROVIT_LIB_DIR="$scratch/rust" cargo test --no-run --test calls 2>"$scratch/said" && grep "gedrovit_version_${version//./_}" "$scratch/said"
}

# The crate's example answers the text in a file as ./refine does, and says why a net is refused.
rust_example() {
    local example=$root/target/cargo/debug/examples/refine_text nets=$root/examples
    rust GEDROVIT_LIB_DIR="$prefix/lib" cargo build --quiet --example refine_text && cmp <("$root/refine" "$nets/panel.txt") <("$example" "$nets/panel.txt") \
        && ! "$example" "$nets/fin.txt" 2>"$scratch/said" && diff <(echo 'refine_text: refusal 9 at face 4: a side runs as a side of an earlier face does') "$scratch/said"
}

# A copy of the crate alone: its tests pass, those that need the repository are skipped, and nothing is warned of.
rust_outside() {
    cp -r "$root/package/rust" "$scratch/crate" && ! GEDROVIT_LIB_DIR=$prefix/lib CARGO_TARGET_DIR=$scratch/crate-target cargo test --offline --locked --manifest-path "$scratch/crate/Cargo.toml" 2>&1 \
        | tee "$scratch/said" | grep -E '^(warning|error|test result: FAILED)' && grep -q '0 passed; 0 failed; 4 ignored' "$scratch/said" || ! cat "$scratch/said"
}

# What would be packed has licence, guide and example.
rust_packed() {
    rust GEDROVIT_LIB_DIR="$prefix/lib" cargo package --list --allow-dirty >"$scratch/said" && diff <(grep -xE 'LICENSE|README.md|examples/refine_text.rs' "$scratch/said" | LC_ALL=C sort) <(printf '%s\n' LICENSE README.md examples/refine_text.rs)
}

check "headers alone, in C11 and C++17" headers_alone
check "make install" installed_files
check "make install with DESTDIR, make uninstall" staged_files
check "make without the kit" no_kit
check "what make offers" targets
check "symbols of the archive" symbols
check "one version everywhere" versions
check "numbers in definitions, headers and documents" python3 "$root/tests/package/numbers.py"
check "constants of the header" constants
check "wrong constants are seen" wrong_constants
check "header and archive of different versions" version_guard
check "types without an archive" types_only
check "tables started by their function ask for no letters" old_source
check "programs of 0.5.1 get their old points" old_points
check "calls of the archive without a tension" no_tension
check "a refining call without the record" no_record
check "two plug-ins with archives" plugins
check "archive in a shared object" shared_object
check "nets in vectors" vectors
check "stack" stack
check "Rust crate: another version's archive" rust_guard
check "Rust crate: tests" rust GEDROVIT_LIB_DIR="$prefix/lib" cargo test --quiet
check "Rust crate: archive of the repository" rust_links "$root/package/rust/../../crates/capi/out"
check "Rust crate: no archive" rust_refused
check "Rust crate: the example" rust_example
check "Rust crate: outside the repository" rust_outside
check "Rust crate: what is packed" rust_packed
if have pkg-config; then
    check "Rust crate: archive by pkg-config" rust_links "$prefix/lib" PKG_CONFIG_PATH="$prefix/lib/pkgconfig"
    check "examples by pkg-config" by_pkg_config
    check "plug-in by pkg-config" plugin_by_pkg_config
    check "LIBDIR" other_libdir
fi
if have cmake; then
    check "examples by CMake" by_cmake
    check "plug-in by CMake" plugin_by_cmake
    check "versions for CMake" cmake_versions
    check "processors for CMake" cmake_processors
fi

prefix=$scratch/moved
mv "$scratch/installed" "$prefix"
have pkg-config >/dev/null && check "moved: examples by pkg-config" by_pkg_config
have cmake >/dev/null && check "moved: examples by CMake" by_cmake

[ "$failed" -eq 0 ]
