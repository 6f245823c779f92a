#!/usr/bin/env bash
# Build the examples and hold what they print to the stored text. The last line is 'K passed'.
set -eu
cd "$(dirname "$0")/.."
link/build.sh
inputs=$(mktemp -d)
trap 'rm -rf "$inputs"' EXIT
passed=0

# try NAME WORDS..: both examples, with these words, print link/expected/NAME.txt
try() {
    local name=$1 program
    shift
    for program in example_c example_rust; do
        "target/link/$program" "$@" >"$inputs/printed"
        diff -u "link/expected/$name.txt" "$inputs/printed" || {
            echo "$program on $name prints something else"
            exit 1
        }
        passed=$((passed + 1))
    done
}

./gateway input plans/a.plan >"$inputs/plan_a"
head -c -3 "$inputs/plan_a" >"$inputs/cut"
: >"$inputs/empty"
try plan_a "$inputs/plan_a"
try too_short "$inputs/plan_a" 10
try cut_short "$inputs/cut"
try empty "$inputs/empty"

# a record that is stored, the same with its first entry left out, and with a byte behind it
head -c 48 "$inputs/plan_a" >"$inputs/tasks"
python3 -m sim record <"$inputs/plan_a" >"$inputs/record"
tail -c +25 "$inputs/record" >"$inputs/first_left_out"
{
    cat "$inputs/record"
    printf '\007'
} >"$inputs/byte_behind"
try read_plan_a --read "$inputs/tasks" "$inputs/record"
try read_too_short --read "$inputs/tasks" "$inputs/record" 29
try read_no_list --read "$inputs/tasks" "$inputs/first_left_out"
try read_another_kind --read "$inputs/tasks" "$inputs/byte_behind"
try read_a_release --read "$inputs/plan_a" "$inputs/record"
try read_nothing --read "$inputs/tasks" "$inputs/empty"

# a spacing of 5 ticks for task 3 behind the tasks, and a second release of 3 at 4, which comes too soon; and a spacing of 0
{
    cat "$inputs/tasks"
    printf '\003\003\005\000\000\000'
} >"$inputs/spaced_tasks"
{
    cat "$inputs/spaced_tasks"
    tail -c +49 "$inputs/plan_a"
    printf '\002\003\004\000\000\000\000\000\000\000'
} >"$inputs/spaced"
{
    cat "$inputs/tasks"
    printf '\003\003\000\000\000\000'
} >"$inputs/bad_spacing"
python3 -m sim record <"$inputs/spaced" >"$inputs/spaced_record"
try spaced "$inputs/spaced"
try read_spaced --read "$inputs/spaced_tasks" "$inputs/spaced_record"
try read_no_list --read "$inputs/tasks" "$inputs/spaced_record"
try bad_spacing "$inputs/bad_spacing"

# the waveform: whole, where the slice is as long as it and a byte too short, and of what is refused
try waveform_plan_a --waveform "$inputs/plan_a"
try waveform_plan_a --waveform "$inputs/plan_a" 445
try waveform_too_short --waveform "$inputs/plan_a" 444
try waveform_cut_short --waveform "$inputs/cut"
try waveform_empty --waveform "$inputs/empty"

# what the examples refuse: a missing file, a length that is no number, too many words, and a disk that is full
refuse() {
    local program status
    for program in example_c example_rust; do
        status=0
        "target/link/$program" "$@" >"${to:-$inputs/printed}" 2>"$inputs/said" || status=$?
        if [ $status -ne 2 ] || [ "$(wc -l <"$inputs/said")" -ne 1 ]; then
            echo "$program $*: status $status"
            cat "$inputs/said"
            exit 1
        fi
        passed=$((passed + 1))
    done
}
refuse "$inputs/missing"
refuse "$inputs/plan_a" x
refuse "$inputs/plan_a" -1
refuse "$inputs/plan_a" 1 1
refuse --read "$inputs/tasks"
refuse --waveform
refuse --waveform "$inputs/plan_a" 1 1
to=/dev/full refuse "$inputs/plan_a"
try plan_a "$inputs/plan_a" 18446744073709551617

# memory that no call made
target/link/any_bytes_c
passed=$((passed + 1))

# spacings: opening with some, refusals with their places, and the edge
target/link/spacings_c
passed=$((passed + 1))

# tickets: what counts in them, what is refused, and that a commit does what its enquiry showed
target/link/tickets_c
passed=$((passed + 1))

# the model of the hardware, commanded by views alone: no fault, and one with a command of any kind left out
target/link/hardware_c 3000 "${SEED:-1}"
passed=$((passed + 1))
for command in copy-in break-off copy-out run copy-in-and-run again; do
    said=$(target/link/hardware_c 3000 "${SEED:-1}" "$command") && {
        echo "with a command left out, $command, the hardware has no fault"
        exit 1
    }
    [ "${said#fault at tick }" != "$said" ] || {
        echo "hardware_c, with $command left out: $said"
        exit 1
    }
    passed=$((passed + 1))
done

# the drivers, in C and in Rust: what each core printed is what `gateway` prints for its releases
[ -x target/bin/gateway ] || ./gateway build >"$inputs/log" 2>&1 || {
    cat "$inputs/log"
    exit 1
}
driven=$(python3 link/check_driver.py 40 target/link/driver_c target/link/driver_rust) || {
    echo "$driven"
    exit 1
}
passed=$((passed + ${driven% passed}))

# the Rust package's own tests
cargo test --quiet --offline --manifest-path link/rust/Cargo.toml --target-dir target/cargo >"$inputs/log" 2>&1 || {
    cat "$inputs/log"
    exit 1
}
passed=$((passed + 1))

# its pages, with no item that says nothing
RUSTDOCFLAGS='-D warnings -D missing_docs' cargo doc --quiet --offline --no-deps --manifest-path link/rust/Cargo.toml --target-dir target/cargo >"$inputs/log" 2>&1 || {
    cat "$inputs/log"
    exit 1
}
passed=$((passed + 1))

# the C programs as strictly as they may be built, by the compilers that are there
strict=$(link/builds.sh 2>&1) || {
    echo "$strict"
    exit 1
}
strict=${strict##*$'\n'}
passed=$((passed + ${strict% passed}))

# what is installed: a C program by pkg-config, and a Cargo package elsewhere that names the wrapper by its path
link/install.sh "$inputs/prefix" >"$inputs/log" 2>&1 || {
    cat "$inputs/log"
    exit 1
}
export PKG_CONFIG_PATH="$inputs/prefix/lib/pkgconfig"
eval "cc -std=c99 -Wall -Wextra -Wpedantic -Werror -o '$inputs/session' link/session.c $(pkg-config --cflags --libs gateway)"
printf '' | "$inputs/session" | grep -qx X
passed=$((passed + 1))

# one version, and a program with the header of another layout is not linked
version=$(sed -n 's/^#define GATEWAY_VERSION "\(.*\)"$/\1/p' link/gateway.h)
[ "$(pkg-config --modversion gateway)" = "$version" ]
[ "$(cargo pkgid --offline --manifest-path link/rust/Cargo.toml | sed 's/.*[#@]//')" = "$version" ]
grep -q "^## $version" CHANGELOG.md
passed=$((passed + 1))
mkdir "$inputs/old"
sed 's/_v[0-9]*(/_v0(/' link/gateway.h >"$inputs/old/gateway.h"
cp link/session.c "$inputs/old"
cc -std=c11 -c -o "$inputs/old/session.o" "$inputs/old/session.c"
if cc -o "$inputs/old/session" "$inputs/old/session.o" target/staticlib/libgateway.a 2>"$inputs/log"; then
    echo "a program with the header of another layout is linked"
    exit 1
fi
grep -q 'undefined reference to .*_v0' "$inputs/log"
passed=$((passed + 1))
mkdir -p "$inputs/other/src"
cat >"$inputs/other/Cargo.toml" <<END
[package]
name = "other"
version = "0.1.0"
edition = "2024"

[dependencies]
gateway = { path = "$PWD/link/rust" }
END
echo 'fn main() { println!("{}", gateway::Dispatcher::open(&[]).unwrap_err()); }' >"$inputs/other/src/main.rs"
cargo run --quiet --offline --manifest-path "$inputs/other/Cargo.toml" >"$inputs/printed"
grep -qx 'there is no entry (refusal 12)' "$inputs/printed"
passed=$((passed + 1))
echo "$passed passed"
