#!/usr/bin/env bash
# The record of each plan here, read back, is a plan that runs alike; one that is not whole is refused, with the place; and each command tells of
# the plan. The last line is 'K passed'.
set -eu
cd "$(dirname "$0")/.."
made=$(mktemp -d)
trap 'rm -rf "$made"' EXIT
passed=0

# fail WORDS..: say what is wrong, and end
fail() {
    echo "$*"
    exit 1
}

for plan in plans/*.plan; do
    ./gateway record "$plan" >"$made/record"
    ./gateway read "$plan" "$made/record" >"$made/again.plan" 2>"$made/note"
    ./gateway run "$plan" >"$made/lines"
    ./gateway run "$made/again.plan" | diff "$made/lines" - || fail "$plan is read back as something else"
    ./gateway show "$made/record" | diff "$made/lines" - || fail "the record of $plan shows something else"
    status=0
    head -c -24 "$made/record" >"$made/cut"
    ./gateway read "$plan" "$made/cut" >"$made/none" 2>"$made/why" || status=$?
    if [ "$status" -ne 1 ] || [ -s "$made/none" ] || ! grep -q 'cut: .*(refusal 18)$' "$made/why" ||
        ! grep -q "cut: byte $(stat -c %s "$made/cut"): the record ends" "$made/why"; then
        fail "the record of $plan without its last entry is not refused by 18, or not where it ends"
    fi
    for words in summary "summary --json" figure "figure --json" picture page "compare --mark 1=0"; do
        # shellcheck disable=SC2086
        ./gateway $words "$plan" >"$made/told" || fail "$words $plan does not end well"
        [ -s "$made/told" ] || fail "$words $plan writes nothing"
    done
    grep '^J' "$made/lines" >"$made/jobs"
    while read -r _ task time start end _; do
        ./gateway why "$plan" "$task" "$time" >"$made/told"
        ./gateway why "$plan" "$task" "$time" --record "$made/record" 2>"$made/note" | diff "$made/told" - || fail "$plan $task $time is told otherwise of its record"
        grep -q "^response $((end - time)) = " "$made/told" || fail "$plan $task $time has another response, or none"
        grep -q " $start to [0-9]* *execution$" "$made/told" || fail "$plan $task $time starts otherwise"
        passed=$((passed + 1))
    done <"$made/jobs"
    grep '^S' "$made/lines" >"$made/skips" || true
    while read -r _ task time; do
        ./gateway why "$plan" "$task" "$time" >"$made/told"
        grep -q "^The release of task $task at $time was skipped\.$" "$made/told" || fail "$plan $task $time is skipped, and told otherwise"
        passed=$((passed + 1))
    done <"$made/skips"
    passed=$((passed + 10))
done
./gateway merge plans/a.plan >"$made/merged" && ./gateway run "$made/merged" | diff <(./gateway run) - || fail "plan A merged runs otherwise"
echo "$((passed + 1)) passed"
