#!/usr/bin/env bash
# Makes the card of a feed's first line and weighs the lines after it: callers/c/run.sh [FEED]
# Without FEED: examples/feed.txt, whose output must be examples/feed.out.
set -euo pipefail
cd "$(dirname "${BASH_SOURCE[0]}")/../.."
archive=target/staticlib/libexport.a
bash tools/link.sh export
built=target/callers-c
mkdir -p "$built"
for program in card weigh; do
  gcc -std=c99 -O2 -Wall -Wextra -pedantic -Werror -Iinclude callers/c/$program.c "$archive" -o "$built/$program"
done
feed=${1:-examples/feed.txt}
head -n 1 "$feed" | "$built/card" >"$built/feed.card"
tail -n +2 "$feed" | "$built/weigh" "$built/feed.card" >"$built/feed.out"
cat "$built/feed.out"
if [ $# -eq 0 ]; then
  diff examples/feed.out "$built/feed.out" >&2
fi
