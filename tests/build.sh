#!/usr/bin/env bash
# Proves and builds the program and the static library: crates/wellreport/out/wellreport and
# crates/sukepina/out/libsukepina.a.
set -euo pipefail
cd "$(dirname "$0")/.."
(cd crates/wellreport && rt run)
(cd crates/sukepina && rt lib)
