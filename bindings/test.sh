#!/bin/bash
# Tests the gates from C, Rust and Python with this machine's own compilers. It builds and installs
# the C library into out/c, compiles the header as C and C++, runs the C and Python programs and the
# tests of the Rust crate, C programs also under the thread sanitizer where it can, has bin/mntgate
# judge what the recording library writes, and says what it does. A difference ends it.
#
#     bindings/test.sh
set -euo pipefail

root=$(dirname "$(dirname "$(readlink -f "$0")")")
cd "$root"
prefix=$root/out/c
work=$(mktemp -d)
trap 'rm -rf "$work"' EXIT
strict=(-Wall -Wextra -Werror -pedantic)
compiler=gcc

say() {
    printf 'bindings: %s\n' "$*"
}

# Fails where a program doesn't print just this.
expect() {
    local wanted=$1 came
    shift
    came=$("$@" 2>"$work/said") || { cat "$work/said" >&2; say "$* failed"; exit 1; }
    if [[ $came != "$wanted" ]]; then
        diff <(printf '%s\n' "$wanted") <(printf '%s\n' "$came") >&2 || true
        say "$* printed something else"
        exit 1
    fi
}

# As it is, and as the thread sanitizer has it.
test_header() {
    local standard how
    local -a words
    cat >"$work/header.c" <<'END'
#include "mntgate.h"

int main(void)
{
	struct mntgate_task task = MNTGATE_NONE;

	return task.at != NULL || mntgate_split(&task, &task);
}
END
    cp "$work/header.c" "$work/header.cc"
    words=("${strict[@]}" -I"$prefix/include" -fsyntax-only)
    for how in -DPLAIN -fsanitize=thread; do
        for standard in c99 c11; do
            gcc "-std=$standard" "$how" "${words[@]}" "$work/header.c"
        done
        for standard in c++11 c++20; do
            g++ "-std=$standard" "$how" "${words[@]}" "$work/header.cc"
        done
    done
}

# Compiles a C program against what was installed: the library in this folder.
compile_with() {
    local library=$1 source=$2 program=$3
    shift 3
    "$compiler" -std=c11 -O2 -D_GNU_SOURCE "${strict[@]}" -I"$prefix/include" -o "$program" \
        "$source" "$@" "$library/libmntgate.a" -lpthread
}

compile() {
    compile_with "$prefix/lib" "$@"
}

test_c() {
    compile bindings/c/tests/calls.c "$work/calls"
    expect "all calls" "$work/calls"
    compile bindings/c/tests/refuse_memory.c "$work/refuse_memory" -Wl,--wrap=malloc,--wrap=realloc
    "$work/refuse_memory" >"$work/refused"
    grep -q 'all closed$' "$work/refused"
    compile bindings/c/examples/first.c "$work/first"
    expect "$(cat bindings/c/examples/first.stdout)" "$work/first"
    compile bindings/c/examples/remount.c "$work/remount"
    expect "$(cat bindings/c/examples/remount.stdout)" "$work/remount"
    compile bindings/c/examples/pool.c "$work/pool"
    expect "$(cat bindings/c/examples/pool.stdout)" "$work/pool"
    compile bindings/c/examples/log_backup.c "$work/log_backup"
    expect "without the gates: backups are torn" "$work/log_backup" without
    expect "with the gates: no backup is torn" "$work/log_backup" with
}

# Fails unless some execution of the model has the history in this file, whose calls are as many as
# a pattern says.
expect_possible() {
    local pattern=$1 came
    if ! came=$("$root/bin/mntgate" validate --limit 60000000 "$2" 2>"$work/said"); then
        cat "$work/said" >&2
        say "$2 isn't possible"
        exit 1
    fi
    [[ $came =~ ^possible:\ $pattern\ calls ]] || { say "$2: $came"; exit 1; }
}

# What the shared library in this folder exports.
exports_of() {
    nm -D --defined-only "$1/libmntgate.so" | cut -d ' ' -f 3
}

# The library that records: it does the same, and what it writes is possible. A file that can't be
# written is told, and the program goes on.
test_recording() {
    local recording=$prefix/lib/mntgate-recording
    diff <(exports_of "$recording") <(exports_of "$prefix/lib")
    compile_with "$recording" bindings/c/tests/calls.c "$work/calls"
    expect "all calls" "$work/calls"
    expect "all calls" env MNTGATE_HISTORY="$work/calls.history" "$work/calls"
    expect_possible 323 "$work/calls.history"
    expect "all calls" env MNTGATE_HISTORY="$work/none/calls.history" "$work/calls"
    grep -q "^mntgate: no history is recorded: $work/none/calls.history: No such file" "$work/said"
    expect "all calls" env MNTGATE_HISTORY=/dev/full "$work/calls"
    grep -q '^mntgate: the history ends here: No space left on device' "$work/said"
    compile_with "$recording" bindings/c/tests/histories.c "$work/histories"
    MNTGATE_HISTORY=$work/threads.history "$work/histories" 4 400 1 300 >"$work/said"
    expect_possible '[0-9]*' "$work/threads.history"
    MNTGATE_LIBRARY=$recording/libmntgate.so.1 MNTGATE_HISTORY=$work/remount.history \
        expect "$(cat bindings/python/examples/remount.stdout)" \
        python3 -B bindings/python/examples/remount.py
    expect_possible '[0-9]*' "$work/remount.history"
}

# Prints the first compiler here that has the runtime of the thread sanitizer.
thread_sanitizer() {
    local compiler
    printf 'int main(void) { return 0; }\n' >"$work/nothing.c"
    for compiler in gcc clang; do
        if "$compiler" -fsanitize=thread -o "$work/nothing" "$work/nothing.c" 2>/dev/null &&
            "$work/nothing" 2>/dev/null; then
            printf '%s\n' "$compiler"
            return
        fi
    done
}

# Every call under the sanitizer; memory that the gates guard, in which it finds no race; and a race
# that is planted, which it finds.
test_threads() {
    local compiler=$1 status=0
    local -x TSAN_OPTIONS=exitcode=66
    compile bindings/c/tests/calls.c "$work/calls_watched" -fsanitize=thread
    expect "all calls" "$work/calls_watched"
    compile bindings/c/tests/threads.c "$work/threads" -g -fsanitize=thread \
        bindings/c/tests/threads_writers.c
    expect "0 records torn" "$work/threads" guarded
    "$work/threads" planted >"$work/said" 2>&1 || status=$?
    if [[ $status -ne 66 ]] || ! grep -q 'ThreadSanitizer: data race' "$work/said"; then
        cat "$work/said" >&2
        say "the thread sanitizer didn't find the race that is planted"
        exit 1
    fi
}

test_python() {
    local name
    for name in backup remount; do
        MNTGATE_LIBRARY=$prefix/lib/libmntgate.so.1 \
            expect "$(cat "bindings/python/examples/$name.stdout")" \
            python3 -B "bindings/python/examples/$name.py"
    done
    MNTGATE_LIBRARY=$prefix/lib/libmntgate.so.1 \
        python3 -B bindings/python/test_mntgate.py 2>"$work/said" ||
        { cat "$work/said" >&2; exit 1; }
}

test_rust() {
    (cd bindings/rust && MNTGATE_LIB=$prefix/lib CARGO_TARGET_DIR=$root/out/c/rust \
        cargo test --offline --quiet) >"$work/said" 2>&1 ||
        { cat "$work/said" >&2; exit 1; }
}

say "builds and installs the C library into out/c"
bin/install-c "$prefix"
say "compiles the header as C99, C11, C++11 and C++20"
test_header
say "runs the C programs"
test_c
if [[ -n $(thread_sanitizer) ]]; then
    say "runs C programs under the thread sanitizer of $(thread_sanitizer)"
    test_threads "$(thread_sanitizer)"
else
    say "no compiler here has the thread sanitizer's runtime: its tests are left out"
fi
say "records histories, and judges them"
test_recording
say "runs the Python programs"
test_python
say "runs the tests of the Rust crate"
test_rust
say "all passed"
