#!/usr/bin/env bash
# Prints where the static library is, made anew if a source is younger.
set -euo pipefail
cd "$(dirname "${BASH_SOURCE[0]}")/.."
bash tools/link.sh export
echo target/staticlib/libexport.a
