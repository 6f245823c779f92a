#!/usr/bin/env bash
# Build the header and the C programs over it as strictly as those who link them may, with each compiler that is there (gcc, clang), and run
# them: every warning on, optimised, with link-time optimisation, with sanitizers, as C++17; then cppcheck, where it is there. The last line is 'K passed'.
set -eu
unset CDPATH
cd "$(dirname "$(readlink -f "$0")")/.."
link/library.sh
library=target/staticlib/libgateway.a
built=$(mktemp -d)
trap 'rm -rf "$built"' EXIT
passed=0

strict=(-Wall -Wextra -Wpedantic -Wconversion -Wshadow -Wundef -Werror)
warnings_gcc=(-Wcast-align=strict -Warray-bounds=2 -Wstringop-overflow -Wstrict-aliasing=2)
warnings_clang=(-Wcast-align -Warray-bounds -Wstrict-aliasing)

# can COMPILER WORDS..: whether it is there, with what it needs for these words; where it is not, that is said
can() {
    echo 'int main(void) { return 0; }' >"$built/probe.c"
    "$@" -o "$built/probe" "$built/probe.c" >"$built/log" 2>&1 && return
    echo "link/builds.sh: left out, as it is not to be had here: $*" >&2
    return 1
}

# build COMPILER WORDS..: the C programs with these words, and a run of each
build() {
    local compiler=$1 name
    shift
    for name in example driver session any_bytes spacings tickets hardware; do
        "$compiler" -std=c11 "${strict[@]}" "$@" -o "$built/$name" "link/$name.c" $library
    done
    "$built/hardware" 300 2 >"$built/log" && "$built/any_bytes" >"$built/log" && "$built/spacings" >"$built/log" && "$built/tickets" >"$built/log" && "$built/example" link/builds.sh >"$built/log" || {
        cat "$built/log"
        echo "a program built by $compiler $* fails"
        exit 1
    }
    printf '' | "$built/session" | grep -qx X
    python3 link/check_driver.py 2 "$built/driver" >"$built/log" || {
        cat "$built/log"
        exit 1
    }
    passed=$((passed + 1))
}

# as C++17, of which the model of the hardware is a program too
build_cpp() {
    "$1" -x c++ -std=c++17 "${strict[@]}" -O2 -o "$built/hardware" link/hardware.c -x none $library
    "$built/hardware" 300 3 >"$built/log"
    passed=$((passed + 1))
}

for family in gcc clang; do
    can $family || continue
    warnings="warnings_$family[@]"
    for words in -O0 -O2 -O3 "-O3 -flto" "-O1 -g -fsanitize=address,undefined -fno-sanitize-recover=all"; do
        # shellcheck disable=SC2086 # words
        can $family $words && build $family "${!warnings}" $words
    done
    cpp=${family/gcc/g++}
    cpp=${cpp/clang/clang++}
    can "$cpp" && build_cpp "$cpp"
done
if command -v cppcheck >/dev/null; then
    cppcheck --quiet --std=c11 --enable=warning,performance,portability,style --error-exitcode=1 --suppress=missingIncludeSystem -I link link/*.c
    passed=$((passed + 1))
fi
echo "$passed passed"
