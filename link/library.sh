#!/usr/bin/env bash
# Build target/staticlib/libgateway.a, where what it is made of has changed. What two functions of one library call is compiled once for both and
# then slower, so that the record function, the reading of a record, the dispatcher by instants and the waveform are proved and compiled as libraries of
# their own; here they are put into one. What it is at is said on standard error; what `rt` says goes into target/staticlib/NAME.log.
# With `--left FILE`, which the gate gives, over what an `rt ci` has left that began after the file was written (tools/libraries.py).
set -eu
unset CDPATH
cd "$(dirname "$(readlink -f "$0")")/.."
libraries=(exports exports_reading exports_instants exports_waves)
out=target/staticlib
note=$out/libgateway.made

say() {
    echo "link/library.sh: $*" >&2
}

# the sum of what the library is made of: the sources and this script, and the toolchain by what `rt` says of itself
made_of() {
    {
        find crates/*/src crates/*/specs crates/*/proofs crates.txt link/library.sh -type f -print0 | sort -z | xargs -0 sha256sum
        rt version 2>&1
    } | sha256sum
}

command -v rt >/dev/null || {
    say "rt, the Rattle toolchain, is not on the PATH"
    exit 1
}
made=$(made_of)
if [ -e $out/libgateway.a ] && [ "$(cat $note 2>/dev/null)" = "$made$(sha256sum <$out/libgateway.a)" ]; then
    say "nothing has changed since $out/libgateway.a was made"
    exit 0
fi
mkdir -p $out
rm -f $note
for at in "${!libraries[@]}"; do
    name=${libraries[at]}
    say "$((at + 1)) of ${#libraries[@]}, $name: proved, with what it stands on, and compiled; some minutes where much has changed"
    began=$SECONDS
    python3 -m tools.libraries "$name" "$@" >"$out/$name.log" 2>&1 || {
        cat "$out/$name.log" >&2
        say "$name is not built"
        exit 1
    }
    cp "crates/$name/out/lib$name.a" "$out/"
    say "$name took $((SECONDS - began)) s"
done
rm -f $out/libgateway.a
(
    cd $out
    {
        echo CREATE libgateway.a
        printf 'ADDLIB lib%s.a\n' "${libraries[@]}"
        echo SAVE
        echo END
    } | ar -M
)
echo "$made$(sha256sum <$out/libgateway.a)" >$note
say "$out/libgateway.a is made"
