#!/bin/sh
# Tries the library for C, the module for Python over it, and the samples of docs/EMBEDDING.md.
#
#     tests/c.sh [PROGRAM]
#
# Its argument is the program, with which the library is compared. The archive is that of the crate poincare_c, or what
# ARCHIVE names; where there is none, the kit's command rt builds it. CROSS_ARCHIVE names one for 64-bit ARM. What the script needs and this machine lacks is said,
# and counts as neither passed nor failed. The last line says how many checks passed and failed; the status is 1 where one
# failed.
root=$(cd "$(dirname "$0")/.." && pwd)
program=${1:-$root/crates/poincare/out/poincare}
own=$root/crates/poincare_c/out/libpoincare_c.a
ARCHIVE=${ARCHIVE:-$own}
export ARCHIVE
. "$root/tests/tried.sh"
version=$(cat "$root/VERSION")
cross=aarch64-linux-gnu
crossed=${CROSS_ARCHIVE:-$root/crates/poincare_c/out/libpoincare_c-$cross.a}
strict="-std=c11 -Wall -Wextra -pedantic -Werror"
limited="timeout 900"

# compiled COMPILER WORD..: compiles the C side without a warning
compiled() {
    for file in "$root"/c/*.c "$root"/tests/c/*.c; do
        "$@" $strict -I"$root/c" -c -o "$folder/object.o" "$file" || return 1
    done
}

# built SUFFIX WORD..: builds the tests with these words for the compiler
built() {
    suffix=$1
    shift
    for test in slots memory threads program; do
        ${CC:-gcc} $strict "$@" -I"$root/c" -o "$folder/$test$suffix" "$root/tests/c/$test.c" "$out/libpoincare.a" -pthread ||
            return 1
    done
    ${CC:-gcc} $strict "$@" -I"$root/c" -o "$folder/example$suffix" "$root/c/example.c" "$root/c/heap.c" "$ARCHIVE" -pthread
}

# The archive has the calls of the header and no other global symbol, and needs what it is said to need.
has_symbols() {
    sed -n 's/.*\b\(poincare_[a-z_]*\)(.*;$/\1/p' "$root/c/poincare.h" | sort -u >"$folder/wanted"
    nm -g --defined-only "$ARCHIVE" | awk 'NF == 3 { print $3 }' | sort -u >"$folder/exported"
    nm -D --defined-only "$out/libpoincare.so" | awk 'NF == 3 { print $3 }' | sort -u >"$folder/shared"
    diff "$folder/wanted" "$folder/exported" && diff "$folder/wanted" "$folder/shared" || return 1
    nm -u "$ARCHIVE" | awk 'NF == 2 { print $2 }' | sort -u >"$folder/needed"
    ! grep -v -x -E 'rattle_(alloc|realloc|dealloc)|mem(cpy|move|set|cmp)|bcmp|__u?(div|mod)ti3|_GLOBAL_OFFSET_TABLE_' "$folder/needed"
}

tells_example() {
    $limited "$@" >"$folder/told" && diff "$folder/told" "$root/tests/c/example.txt"
}

tells_hundred() {
    $limited "$@" <"$root/tests/hundred-lines.txt" >"$folder/told" && diff "$folder/told" "$root/tests/hundred-answers.txt"
}

# is_installed PREFIX LIBDIR: what is installed there is found by pkg-config, or by its path, and works; it has the version, and
# all of it is taken away again
is_installed() {
    places="PREFIX=$1 LIBDIR=$2"
    make -s -C "$root/c" OUT="$out" $places install || return 1
    words="-I$1/include -L$2 -lpoincare"
    if has pkg-config; then
        words=$(PKG_CONFIG_PATH=$2/pkgconfig pkg-config --cflags --libs poincare) || return 1
        [ "$(PKG_CONFIG_PATH=$2/pkgconfig pkg-config --modversion poincare)" = "$version" ] || return 1
    fi
    ${CC:-gcc} -std=c11 -o "$folder/example.installed" "$root/c/example.c" $words -pthread || return 1
    tells_example env LD_LIBRARY_PATH="$2" "$folder/example.installed" || return 1
    objdump -p "$2/libpoincare.so.$version" | grep -q "SONAME *libpoincare.so.${version%%.*}$" || return 1
    make -s -C "$root/c" OUT="$out" $places uninstall || return 1
    [ -z "$(find "$1" ! -type d)" ]
}

# The example, built for 64-bit ARM, is run by qemu.
runs_crossed() {
    make -s -C "$root/c" CROSS="$cross" OUT="$folder/crossed" ARCHIVE="$crossed" || return 1
    tells_example qemu-aarch64 -L "/usr/$cross" "$folder/crossed/example"
}

if ! has "${CC:-gcc}" || ! has make; then
    lacks "all of it" "gcc and make are needed"
    ends
fi
if [ ! -f "$ARCHIVE" ]; then
    if [ "$ARCHIVE" != "$own" ]; then
        echo "failed: there is no $ARCHIVE"
        failed=1
        ends
    fi
    if ! has rt; then
        lacks "all of it" "$ARCHIVE is not built, and the command rt, which builds it, is missing"
        ends
    fi
    # The rule of c/Makefile names it by this path.
    tried "the archive" make -s -C "$root/c" ../crates/poincare_c/out/libpoincare_c.a
    [ -f "$ARCHIVE" ] || ends
fi
out=$folder/out
mkdir "$out"

for compiler in gcc clang; do
    if has $compiler; then
        tried "no warning of $compiler" compiled $compiler -O2
    else
        lacks "warnings" "$compiler"
    fi
done
tried "make" make -s -C "$root/c" OUT="$out"
tried "symbols" has_symbols
tried "install" is_installed "$folder/installed" "$folder/installed/lib"
tried "install to LIBDIR" is_installed "$folder/elsewhere" "$folder/elsewhere/lib/of-a-processor"
tried "the tests are built" built "" -O2
for compiler in g++ clang++; do
    if has $compiler; then
        tried "C++ by $compiler" "$compiler" -std=c++11 -Wall -Wextra -pedantic -Werror -I"$root/c" -o "$folder/header" \
            "$root/tests/c/header.cpp" "$out/libpoincare.a"
        tried "C++" "$folder/header"
    else
        lacks "C++" "$compiler"
    fi
done

tried "the example" tells_example "$folder/example"
tried "slots" $limited "$folder/slots"
tried "memory" $limited "$folder/memory"
tried "threads" $limited "$folder/threads"

sanitizers="-fsanitize=address,undefined -fno-sanitize-recover=all"
if echo 'int main(void) { return 0; }' | ${CC:-gcc} -x c $sanitizers -o "$folder/nothing" - 2>"$folder/said"; then
    tried "the sanitized tests are built" built .sanitized -O1 -g $sanitizers
    tried "the example, sanitized" tells_example "$folder/example.sanitized"
    tried "slots, sanitized" $limited "$folder/slots.sanitized"
    tried "memory, sanitized" $limited "$folder/memory.sanitized" 1000
    tried "threads, sanitized" $limited "$folder/threads.sanitized"
    tried "a hundred lines, sanitized" tells_hundred "$folder/program.sanitized"
    tried "a hundred lines in one call, sanitized" tells_hundred "$folder/program.sanitized" --whole
else
    lacks "sanitizers" "the compiler has none"
fi

if has valgrind; then
    valgrind="valgrind -q --leak-check=full --show-leak-kinds=all --errors-for-leak-kinds=all --error-exitcode=9"
    tried "the example under valgrind" tells_example $valgrind "$folder/example"
    tried "slots under valgrind" $limited $valgrind "$folder/slots"
    tried "memory under valgrind" $limited $valgrind "$folder/memory" 100
    tried "threads under valgrind" $limited $valgrind "$folder/threads" 10
    tried "a hundred lines under valgrind" tells_hundred $valgrind "$folder/program"
    tried "a hundred lines in one call under valgrind" tells_hundred $valgrind "$folder/program" --whole
else
    lacks "leaks and uninitialised memory" "valgrind"
fi

if has python3; then
    POINCARE_LIBRARY=$out/libpoincare.so
    export POINCARE_LIBRARY
    tried "the samples of docs/EMBEDDING.md" "$root/tests/embedding.py"
    if [ -x "$program" ]; then
        tried "rows, sessions and the module" "$root/tests/through_c.py" "$program" "$folder/program"
    else
        lacks "the comparison with the program" "$program is not built: ./poincare builds it"
    fi
    tried "the module for Python" $limited "$root/tests/module.py" "$folder/program"
    tried "sessions through the library" "$root/tests/sessions.py" "$folder/program"
    tried "samples through the library" "$root/tests/samples.py" "$folder/program"
else
    lacks "rows, the module and the samples" "python3"
fi
if ! has $cross-gcc || ! has qemu-aarch64; then
    lacks "64-bit ARM" "$cross-gcc and qemu-aarch64"
elif [ ! -f "$crossed" ]; then
    lacks "64-bit ARM" "$crossed is not built: make -C c CROSS=$cross builds it"
else
    tried "64-bit ARM" runs_crossed
fi
tried "little stack" "$root/tests/stack.sh" "$folder/program"
ends
