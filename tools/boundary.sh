#!/usr/bin/env bash
# The tests of the library's boundary in C, C++ and Rust: a part of tools/test.sh, and what `make check` runs.
#   tools/boundary.sh            proves the library and builds target/lib by `make` first
#   tools/boundary.sh --built    takes target/lib as it stands
# One version everywhere; the names that the libraries export and need; the header without warnings, and a warning wherever a refusal is passed over, an array handed over twice or a number left out of a
# switch; every function, called from C and from C++,
# with either library (c/tests/calls.c); decimals that are rounded outward (c/tests/decimals.c); what is asked of the thread (c/tests/thread.c); the stack (c/tests/stack.c, tools/stack); any numbers, lengths and bytes for every function (c/tests/fuzz.c); an installed library, found by pkg-config, and taken away again,
# with the program of docs/for-engineers.md;
# the Rust package's tests, optimized and not, its documentation and clippy, and a program without std. What needs a command that isn't here is skipped, and said to be.
# Exit status 1 where something is otherwise than it has to be, 2 where the library isn't there or isn't built. Nothing is written but below target/, to crates/api_c/out and to a temporary folder.
set -u
cd "$(dirname "$0")/.." || exit 2
case "$*" in
"") built=no ;;
--built) built=yes ;;
*) sed -n '2,11s/^# \{0,1\}//p' "$0"; exit 2 ;;
esac
here() { command -v "$1" >/dev/null; }
skipped() { echo "$1: skipped, there is no $2 here"; }
CC=${CC:-cc} CXX=${CXX:-c++}
here make || { skipped "the library's tests in C, C++ and Rust" make; exit 0; }
here "$CC" || { skipped "the library's tests in C, C++ and Rust" "C compiler"; exit 0; }

made=$(mktemp -d)
trap 'rm -rf "$made"' EXIT
status=0 failed=0
fail() { echo "BOUNDARY: $1"; status=1 failed=1; }
# What a part ends with where nothing of it failed.
passed() { [ "$failed" -ne 0 ] || echo "$1"; failed=0; }
# Runs a command without a word where it succeeds.
quiet() { "$@" >"$made/said" 2>&1 || { local ended=$?; cat "$made/said"; return "$ended"; }; }

if [ "$built" = no ]; then
    # Anew, whatever the timestamps of a kept target/lib say; after it an idle make finds nothing to do. With JELLYPLAIN_AFTER_CI=1, as tools/test.sh sets it, over what `rt ci` has just proved.
    quiet make -B || { echo "BOUNDARY: make builds no library"; exit 2; }
    make -q || fail "make builds again what it has just built"
fi
[ -f target/lib/libjellyplain.a ] && [ -f target/lib/libjellyplain.so ] || { echo "target/lib/libjellyplain.a and libjellyplain.so are missing: run make first"; exit 2; }
library=$PWD/target/lib

# ---- one version: the Makefile's, in every form that it is written in; the library's own is held to the header's by c/tests/calls.c and to Cargo.toml's by the package's tests
version=$(sed -n 's/^VERSION = //p' Makefile)
IFS=. read -r major minor patch <<<"$version"
number=$((10000 * major + 100 * minor + patch))
grep -q "^#define JELLYPLAIN_VERSION $number\$" c/jellyplain.h || fail "c/jellyplain.h: JELLYPLAIN_VERSION is not $number, as the Makefile's $version is written"
grep -q "^version = \"$version\"\$" rust/Cargo.toml || fail "rust/Cargo.toml: the version is not the Makefile's $version"
grep -q "^SONAME = libjellyplain.so.$major\$" Makefile || fail "Makefile: SONAME doesn't end in the major version of $version"
grep -q "^Version: $version\$" target/lib/jellyplain.pc || fail "target/lib/jellyplain.pc: the version is not the Makefile's $version"
grep -q "^## $version" CHANGELOG.md || fail "CHANGELOG.md has no entry for $version"

# ---- names
# Those that the header declares, without its inline functions.
declared=$(sed -e '/static inline/d' -e '/^ *return /d' c/jellyplain.h | sed -n 's/^[A-Za-z_].*[ *]\(jellyplain_[a-z_]*\)(.*/\1/p' | sort)
if here nm; then
    exported=$(nm -D --defined-only "$library/libjellyplain.so" | awk '{ print $3 }' | sort)
    [ "$exported" = "$declared" ] || { fail "libjellyplain.so exports other names than c/jellyplain.h declares:"; diff <(echo "$declared") <(echo "$exported"); }
    needed=$(nm -D --undefined-only "$library/libjellyplain.so" | awk '{ sub(/@.*/, "", $2); print $2 }' | sort | tr '\n' ' ')
    [ "$needed" = "memcpy memset " ] || fail "libjellyplain.so needs $needed"
    needed=$(nm --undefined-only "$library/libjellyplain.a" 2>/dev/null | awk '$1 == "U" { print $2 }' | sort -u | tr '\n' ' ')
    [ "$needed" = "memcpy memset " ] || fail "libjellyplain.a needs $needed"
else
    skipped "the names that the libraries export and need" nm
fi

# ---- the header by itself, and passed over refusals
warnings=(-Wall -Wextra -pedantic -Wconversion -Werror)
printf '#include "jellyplain.h"\n' >"$made/header.c"
for standard in c99 c11 c17; do
    quiet "$CC" -std=$standard "${warnings[@]}" -I c -c "$made/header.c" -o "$made/header.o" || fail "c/jellyplain.h does not compile without a warning as $standard"
done
checked() { # COMPILER WORDS..: each function of the header but those that have nothing to refuse is warned of in c/tests/dropped.c
    local every warned
    every=$(sed -n 's/^[A-Za-z_].*[ *]\(jellyplain_[a-z_]*\)(.*/\1/p' c/jellyplain.h | grep -vxE 'jellyplain_(layout|version|compatible|refusal_text|chain_count|decimals?)' | sort)
    warned=$("$@" -I c -c c/tests/dropped.c -o "$made/dropped.o" 2>&1 | sed -n 's/^[^:]*dropped\.c:\([0-9]*\):.*warn_unused_result.*/\1/p' | sort -nu |
        while read -r line; do sed -n "${line}s/^ *\(jellyplain_[a-z_]*\)(.*/\1/p" c/tests/dropped.c; done | sort)
    [ "$warned" = "$every" ] || { fail "$1 warns of other passed over refusals than the header's functions have:"; diff <(echo "$every") <(echo "$warned"); }
}
checked "$CC" -std=c99

# gcc warns where one array is handed over twice, clang has no such warning.
printf '#include "jellyplain.h"\nuint8_t moved(const jellyplain_move *m, float *p);\nuint8_t moved(const jellyplain_move *m, float *p)\n{\n    return jellyplain_point(m, 0, p, p);\n}\n' >"$made/twice.c"
if "$CC" -Werror -Wrestrict -c -x c /dev/null -o "$made/header.o" 2>/dev/null; then
    "$CC" -std=c99 -Wall -I c -c "$made/twice.c" -o "$made/twice.o" 2>&1 | grep -q 'Wrestrict' || fail "an array that is read and written by one call is not warned of"
fi
wide=$(awk 'length($0) > 120 { print FNR }' c/jellyplain.h | tr '\n' ' ')
[ -z "$wide" ] || fail "c/jellyplain.h: wider than 120 are the lines $wide"

# ---- refusals by number: their texts are the table's, and a switch that leaves a number out is warned of
cat >"$made/texts.c" <<'C'
#include <stdio.h>
#include "jellyplain.h"
int main(void)
{
    for (uint32_t number = 1; number <= JELLYPLAIN_DAY; number++)
        printf("%u %s\n", (unsigned)number, jellyplain_refusal_text(number));
    return 0;
}
C
quiet "$CC" -std=c99 "${warnings[@]}" -I c "$made/texts.c" -o "$made/texts" && diff <(awk -F ' *[|] *' '$2 ~ /^[0-9]+$/ { print $2, $4 }' docs/REFUSALS.md) <("$made/texts") ||
    fail "jellyplain_refusal_text has other texts than docs/REFUSALS.md"
printf '#include "jellyplain.h"\nint named(uint8_t n);\nint named(uint8_t n)\n{\n    switch ((jellyplain_refusal)n) {\n    case JELLYPLAIN_NONE:\n        return 0;\n    }\n    return 1;\n}\n' >"$made/switch.c"
"$CC" -std=c99 -Wall -I c -c "$made/switch.c" -o "$made/switch.o" 2>&1 | grep -q 'Wswitch' || fail "a switch over the refusals that leaves numbers out is not warned of"

# ---- C
files=(examples/*.txt examples/refused/*.txt examples/days/*.txt)
quiet "$CC" -std=c99 "${warnings[@]}" -I c c/tests/calls.c "$library/libjellyplain.a" -lm -o "$made/calls" || fail "c/tests/calls.c does not compile as C"
quiet "$made/calls" "${files[@]}" || fail "c/tests/calls.c, compiled as C, with the static library"
[ "$failed" -ne 0 ] || cat "$made/said"
quiet "$CC" -std=c99 "${warnings[@]}" -I c c/tests/calls.c -L "$library" -ljellyplain -lm -o "$made/calls" || fail "c/tests/calls.c does not link the shared library"
LD_LIBRARY_PATH=$library quiet "$made/calls" "${files[@]}" || fail "c/tests/calls.c, with the shared library"
quiet "$CC" -std=c99 "${warnings[@]}" -I c c/tests/decimals.c -o "$made/decimals" || fail "c/tests/decimals.c does not compile as C"
quiet "$made/decimals" <c/tests/decimals.txt || fail "c/tests/decimals.c: a decimal is rounded inward"
quiet "$CC" -std=c99 "${warnings[@]}" -frounding-math -I c c/tests/thread.c "$library/libjellyplain.a" -o "$made/thread" || fail "c/tests/thread.c does not compile"
quiet "$made/thread" || fail "c/tests/thread.c: what the header says of the thread is not shown"
quiet "$CC" -std=c99 "${warnings[@]}" -I c c/tests/stack.c "$library/libjellyplain.a" -pthread -o "$made/stack" || fail "c/tests/stack.c does not compile"
quiet "$made/stack" || fail "c/tests/stack.c: a call takes more stack than JELLYPLAIN_STACK"
# Every export is fuzzed for some seconds, from one seed; a function that writes although it refuses is seen.
quiet "$CC" -std=c99 "${warnings[@]}" -I c c/tests/fuzz.c "$library/libjellyplain.a" -o "$made/fuzz" || fail "c/tests/fuzz.c does not compile"
quiet "$made/fuzz" 20261118 30000 60 || fail "c/tests/fuzz.c: a function reads, writes or answers what it must not"
[ "$("$made/fuzz" --list | sort)" = "$declared" ] || { fail "c/tests/fuzz.c calls other functions than c/jellyplain.h declares:"; diff <(echo "$declared") <("$made/fuzz" --list | sort); }
cat >"$made/writes.c" <<'C'
#include "jellyplain.h"
uint8_t __real_jellyplain_pad(const jellyplain_move *motion, float time, float *pad);
uint8_t __wrap_jellyplain_pad(const jellyplain_move *motion, float time, float *pad);
uint8_t __wrap_jellyplain_pad(const jellyplain_move *motion, float time, float *pad)
{
    uint8_t number = __real_jellyplain_pad(motion, time, pad);
    if (number != JELLYPLAIN_NONE)
        *pad = 0;
    return number;
}
C
quiet "$CC" -std=c99 -I c c/tests/fuzz.c "$made/writes.c" "$library/libjellyplain.a" -Wl,--wrap=jellyplain_pad -o "$made/fuzz_writes" || fail "c/tests/fuzz.c does not link a wrong function"
"$made/fuzz_writes" 20261118 30000 60 >"$made/said" && fail "c/tests/fuzz.c passes a function that writes although it refuses"
grep -Fq "jellyplain_pad: writes although it refuses" "$made/said" || { cat "$made/said"; fail "c/tests/fuzz.c doesn't name the function that writes although it refuses"; }
if here python3 && here objdump; then
    quiet tools/stack --check || fail "tools/stack --check: a call can take more stack than c/jellyplain.h says"
    sed 's/points and pads 10;/points and pads 1;/' c/jellyplain.h >"$made/header.h"
    tools/stack --check --header "$made/header.h" >"$made/said" && fail "tools/stack --check passes a header that says too little"
    grep -Fq "jellyplain_point takes" "$made/said" || { cat "$made/said"; fail "tools/stack --check doesn't name the function that takes more than the header says"; }
else
    skipped "tools/stack --check" "python3 with objdump"
fi
passed "the library in C, static and shared: as expected"

# ---- C++
if here "$CXX"; then
    for standard in c++11 c++17; do
        quiet "$CXX" -x c++ -std=$standard "${warnings[@]}" -I c -c "$made/header.c" -o "$made/header.o" || fail "c/jellyplain.h does not compile without a warning as $standard"
    done
    checked "$CXX" -x c++ -std=c++11
    quiet "$CXX" -x c++ -std=c++11 "${warnings[@]}" -I c c/tests/calls.c -x none "$library/libjellyplain.a" -o "$made/calls" || fail "c/tests/calls.c does not compile as C++"
    quiet "$made/calls" "${files[@]}" || fail "c/tests/calls.c, compiled as C++"
    quiet "$CXX" -x c++ -std=c++11 "${warnings[@]}" -I c c/tests/decimals.c -o "$made/decimals" || fail "c/tests/decimals.c does not compile as C++"
    quiet "$made/decimals" <c/tests/decimals.txt || fail "c/tests/decimals.c, compiled as C++: a decimal is rounded inward"
    passed "the library in C++: as expected"
else
    skipped "the library's tests in C++" "C++ compiler"
fi

# ---- installed, found, run with either library and with one of another version, and taken away; the folder's name has spaces and a comma
where="$made/a folder, for it"
quiet make install PREFIX="$where" || fail "make install"
cmp -s NOTICE "$where/share/doc/jellyplain/NOTICE" || fail "make install leaves out NOTICE"
example() { quiet "$CC" -std=c99 "${warnings[@]}" c/example.c "$@" -o "$made/example" && LD_LIBRARY_PATH=$where/lib "$made/example" >"$made/printed" && diff c/example.expected "$made/printed"; }
if here pkg-config; then
    asked() { PKG_CONFIG_PATH=$where/lib/pkgconfig pkg-config "$@" jellyplain; }
    [ "$(asked --modversion)" = "$version" ] || fail "pkg-config has another version than $version"
    eval "example $(asked --cflags --libs)" || fail "c/example.c with the installed shared library"
    eval "example $(asked --cflags --libs-only-L) -l:libjellyplain.a" || fail "c/example.c with the installed static library"
else
    skipped "pkg-config's answers for the installed library" pkg-config
fi
example -I "$where/include" -L "$where/lib" -ljellyplain || fail "c/example.c with the installed shared library"
# The program of docs/for-engineers.md, as it stands there, prints what stands there.
sed -n '/^```c$/,/^```$/{/^```/d;p}' docs/for-engineers.md >"$made/boom.c"
quiet "$CC" -std=c99 "${warnings[@]}" -I "$where/include" "$made/boom.c" "$where/lib/libjellyplain.a" -o "$made/boom" || fail "the program of docs/for-engineers.md does not compile"
said=$("$made/boom" <examples/swing.txt 2>&1) && grep -Fqx "    $said" docs/for-engineers.md || fail "the program of docs/for-engineers.md prints '$said' for examples/swing.txt"
said=$("$made/boom" <examples/refused/pad.txt 2>&1)
[ $? -eq 1 ] && grep -Fqx "    $said" docs/for-engineers.md || fail "the program of docs/for-engineers.md prints '$said' for examples/refused/pad.txt"
printf '#include <stdint.h>\nuint32_t jellyplain_version(void);\nuint32_t jellyplain_version(void) { return %d; }\n' "$((number + 10000))" >"$made/other.c"
quiet "$CC" -shared -fPIC "$made/other.c" -o "$made/other.so" || fail "a library of another version can't be made"
LD_PRELOAD=$made/other.so LD_LIBRARY_PATH=$where/lib "$made/example" >"$made/printed"
[ $? -eq 1 ] && grep -q "^the library has version $((number + 10000)) " "$made/printed" || fail "c/example.c runs with a library of another major version"
quiet make uninstall PREFIX="$where" || fail "make uninstall"
[ -z "$(find "$where" ! -type d)" ] || { fail "make uninstall leaves files:"; find "$where" ! -type d; }
# A relative PREFIX is meant from the repository's root, and DESTDIR stands in front of it, in the folders but not in the pkg-config file.
quiet make install PREFIX=some/where DESTDIR="$made/package" || fail "make install with a relative PREFIX and DESTDIR"
grep -Fqx "includedir=$PWD/some/where/include" "$made/package$PWD/some/where/lib/pkgconfig/jellyplain.pc" || fail "make install leaves a relative PREFIX relative"
quiet make uninstall PREFIX=some/where DESTDIR="$made/package" || fail "make uninstall with a relative PREFIX and DESTDIR"
[ -z "$(find "$made/package" ! -type d)" ] || { fail "make uninstall leaves files:"; find "$made/package" ! -type d; }
passed "the library installed, linked by c/example.c and taken away again: as expected"

# ---- Rust
if here cargo; then
    export CARGO_TARGET_DIR=$PWD/target/cargo JELLYPLAIN_STATICLIB=$library
    tests=0
    for profile in dev release; do
        (cd rust && cargo test --quiet --offline --locked --profile $profile) >"$made/said" 2>&1 || { cat "$made/said"; fail "cargo test --profile $profile in rust/"; }
        ran=$(awk '$1 == "test" && $2 == "result:" { passed += $4 } END { print passed + 0 }' "$made/said")
        [ "$ran" -gt 0 ] || fail "cargo test --profile $profile in rust/ ran no test"
        tests=$((tests + ran))
    done
    (cd rust && RUSTDOCFLAGS="-D warnings" quiet cargo doc --quiet --offline --locked --no-deps) || fail "cargo doc in rust/"
    if cargo clippy --version >"$made/said" 2>&1; then
        (cd rust && quiet cargo clippy --quiet --offline --locked --all-targets -- -D warnings) || fail "cargo clippy in rust/"
        (cd rust/without_std && quiet cargo clippy --quiet --offline --locked --release -- -D warnings) || fail "cargo clippy in rust/without_std/"
    else
        skipped "clippy on the Rust package" "cargo clippy"
    fi
    unbuilt() { # WORDS ARGUMENT..: where the package can't be built, it says why
        local words=$1
        shift
        (cd rust && cargo check --quiet --offline --locked "$@") >"$made/said" 2>&1 && fail "rust/ is built, where '$words' is expected"
        grep -Fq -- "$words" "$made/said" || { cat "$made/said"; fail "rust/build.rs doesn't say '$words'"; }
    }
    JELLYPLAIN_STATICLIB=target/lib unbuilt "JELLYPLAIN_STATICLIB is 'target/lib', which is relative"
    JELLYPLAIN_STATICLIB=$made unbuilt "$made/libjellyplain.a is missing: JELLYPLAIN_STATICLIB has to name a folder that has it"
    unbuilt "for x86-64 Linux alone" --target aarch64-unknown-linux-gnu
    (cd rust/without_std && quiet cargo build --quiet --release --offline --locked && "$CARGO_TARGET_DIR/release/without_std") || fail "rust/without_std: the package needs std or an allocator, or answers otherwise"
    passed "the library in Rust, $tests tests and a program without std: as expected"
else
    skipped "the library's tests in Rust" cargo
fi
exit "$status"
