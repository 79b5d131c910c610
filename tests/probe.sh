#!/usr/bin/env bash
# Builds what the probe needs, quietly and once, and runs it: one ask a line on standard input, one answer a line.
set -euo pipefail
root=$(cd "$(dirname "${BASH_SOURCE[0]}")/.." && pwd)
log=$(mktemp)
trap 'rm -f "$log"' EXIT
quietly() {
  "$@" >"$log" 2>&1 </dev/null || { cat "$log" >&2; exit 2; }
}
cd "$root"
quietly bash tools/link.sh export
quietly cargo build --quiet --offline --release --manifest-path tests/Cargo.toml --target-dir target/tests
exec target/tests/release/probe
