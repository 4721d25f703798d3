#!/usr/bin/env bash
# Tries every planted bug, one at a time, on a copy; the prover must refuse each.
# Usage: tests/planted_bugs.sh [CRATE ..]   (all crates take more than an hour)
set -euo pipefail
exec python3 "$(dirname "$0")/planted_bugs.py" "$@"
