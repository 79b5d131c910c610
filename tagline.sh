#!/usr/bin/env bash
# Runs the program over a feed: ./tagline.sh [FEED]   (without FEED: examples/paper.txt)
# The first use proves and links the program, which takes some minutes.
set -euo pipefail
root=$(cd "$(dirname "${BASH_SOURCE[0]}")" && pwd)
feed=$(realpath "${1:-$root/examples/paper.txt}")
cd "$root"
program=target/bin/tagline
[ -x "$program" ] || echo "tagline: proving and linking, some minutes on first use" >&2
log=$(mktemp)
bash tools/link.sh tagline >"$log" 2>&1 || { cat "$log" >&2; exit 1; }
rm -f "$log"
exec "$program" <"$feed"
