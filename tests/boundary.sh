#!/usr/bin/env bash
# Builds the C and the Rust programs of examples/ against the static library with the system's compilers and runs them:
# what they print, record by record and by the batch call, must be what wellreport prints, and for the echo monitor what
# the reference program says. Then the table of hostile C calls.
set -euo pipefail
cd "$(dirname "$0")/.."
program=crates/wellreport/out/wellreport
library=crates/sukepina/out/libsukepina.a
[ -x "$program" ] && [ -e "$library" ] || bash tests/build.sh > /dev/null

build=$(mktemp -d)
trap 'rm -rf "$build"' EXIT
strict="-Wall -Wextra -Werror -pedantic -O2 -Iinclude"
gcc -std=c99 $strict examples/session.c "$library" -o "$build/session_c"
g++ -std=c++17 -x c++ $strict examples/session.c -x none "$library" -o "$build/session_cpp"
gcc -std=c99 $strict examples/hostile.c "$library" -o "$build/hostile"
rustc --edition 2021 -O -D warnings -L crates/sukepina/out examples/session.rs -o "$build/session_rust"

# No heap: the library calls nothing but memcpy.
called=$(nm -u "$library" | sed -n 's/^ *U //p' | sort -u | tr '\n' ' ')
[ "$called" = "memcpy " ] || { echo "boundary: the library calls $called"; exit 1; }

sessions=10
python3 reference/boundary.py "$build" "$sessions"

compared=0
agrees() { # INPUT EXPECTED WAY..
    for language in c cpp rust; do
        for way in "${@:3}"; do
            "$build/session_$language" ${way#default} < "$1" | cmp - "$2" \
                || { echo "boundary: $1, $language, $way differs"; exit 1; }
            compared=$((compared + 1))
        done
    done
}

for input in runs/*.bin "$build"/*.cell.bin; do
    "$program" < "$input" > "$build/expected"
    agrees "$input" "$build/expected" default batch
done
for input in "$build"/*.echo.bin; do
    agrees "$input" "${input%.bin}.txt" echo echo-batch
done
for input in "$build"/*.cell.bin; do
    cmp <("$program" < "$input") "${input%.bin}.txt" || { echo "boundary: wellreport on $input differs"; exit 1; }
done

"$build/hostile"
echo "boundary: $compared runs in C, C++ and Rust agree"
