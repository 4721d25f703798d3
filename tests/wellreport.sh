#!/usr/bin/env bash
# Runs the built wellreport on the stored inputs of runs/ and on 10 MB, and compares what it prints.
set -euo pipefail
cd "$(dirname "$0")/.."
program=crates/wellreport/out/wellreport
[ -x "$program" ] || bash tests/build.sh > /dev/null

runs=0
for input in runs/*.bin; do
    cmp <("$program" < "$input") "${input%.bin}.txt" || { echo "wellreport: $input differs"; exit 1; }
    runs=$((runs + 1))
done

# Only the first 60,800 bytes count, however much follows.
cmp <({ cat runs/one_byte_over.bin; head -c 10000000 /dev/zero; } | "$program") runs/one_byte_over.txt \
    || { echo "wellreport: 10 MB of input differs"; exit 1; }
echo "wellreport: $((runs + 1)) runs agree with the reference program"
