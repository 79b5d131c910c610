#!/usr/bin/env bash
# Proves and links what is used from outside: tools/link.sh export|tagline..
# export: the static library, target/staticlib/libexport.a; tagline: the program, target/bin/tagline. Made anew only if a source is younger.
set -euo pipefail
cd "$(dirname "${BASH_SOURCE[0]}")/.."
for crate in "$@"; do
  case $crate in
  export) step=lib made=crates/export/out/libexport.a kept=target/staticlib/libexport.a ;;
  tagline) step=run made=crates/tagline/out/tagline kept=target/bin/tagline ;;
  *) echo "link: export or tagline" >&2; exit 2 ;;
  esac
  if [ ! -f "$kept" ] || [ -n "$(find crates crates.txt -name out -prune -o -newer "$kept" -print -quit)" ]; then
    (cd "crates/$crate" && rt "$step" </dev/null >&2)
    mkdir -p "$(dirname "$kept")"
    cp "$made" "$kept"
  fi
done
