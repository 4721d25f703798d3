#!/usr/bin/env bash
# Compares the proved library and program with hand-written ones: `bash bench/run.sh`.
# Times are measured in turn in one process; instructions are counted by callgrind. A ratio of 1 or more: the proved one
# is at least as fast. The hand-written library is measured as it stands, and with hints to the compiler to inline.
# SUKEPINA_LIB and WELLREPORT name another library or program to measure.
set -euo pipefail
cd "$(dirname "$0")/.."
build=target/bench
mkdir -p "$build"

library=${SUKEPINA_LIB:-crates/sukepina/out/libsukepina.a}
program=${WELLREPORT:-crates/wellreport/out/wellreport}
[ -e "$library" ] && [ -x "$program" ] || bash tests/build.sh > /dev/null

rust="rustc --edition 2021 -C opt-level=3 --check-cfg cfg(hints)"
$rust -C panic=abort -o "$build/wellreport" bench/wellreport.rs
bench() { # FOLDER FLAGS..
    mkdir -p "$build/$1"
    cp "$library" "$build/$1/libsukepina.a"
    $rust "${@:2}" -C panic=abort --crate-type staticlib -o "$build/$1/libhand.a" bench/handwritten.rs
    $rust -L "$build/$1" -o "$build/$1/bench" bench/bench.rs
}
bench plain
bench hints --cfg hints
"$build/plain/bench" session cell > "$build/session.bin"

# Instructions of a whole run of a program.
instructions() {
    valgrind --tool=callgrind --callgrind-out-file=/dev/null "$@" 2>&1 > /dev/null | sed -n 's/.*Collected : *//p'
}

# Instructions of one of many: two runs, so that what comes before and after cancels out.
records=3200 # one session
per_call() { # CALL MONITOR FOLDER WHICH
    local few many
    few=$(instructions "$build/$3/bench" count "$1" "$2" "$4" $records)
    many=$(instructions "$build/$3/bench" count "$1" "$2" "$4" $((4 * records)))
    echo $(((many - few) / (3 * records)))
}

ratio() {
    awk "BEGIN { printf \"%.2f\", $2 / $1 }"
}

echo "== hand-written, no hints"
"$build/plain/bench" time "$program" "$build/wellreport" "$build/session.bin"
echo
echo "== hand-written, with hints to inline"
"$build/hints/bench" time "$program" "$build/wellreport" "$build/session.bin"
echo
printf '%-28s%10s%14s%7s%12s%7s\n' "instructions" "proved" "hand-written" "ratio" "with hints" "ratio"
for call in step feed readout lines; do
    for monitor in cell echo; do
        proved=$(per_call $call $monitor plain proved)
        plain=$(per_call $call $monitor plain hand)
        hints=$(per_call $call $monitor hints hand)
        printf '%-28s%10d%14d%7s%12d%7s\n' "$monitor $call, one record" "$proved" "$plain" "$(ratio "$proved" "$plain")" \
            "$hints" "$(ratio "$proved" "$hints")"
    done
done
proved=$(instructions "$program" < "$build/session.bin")
plain=$(instructions "$build/wellreport" < "$build/session.bin")
printf '%-28s%10d%14d%7s\n' "wellreport, 3,200 records" "$proved" "$plain" "$(ratio "$proved" "$plain")"
