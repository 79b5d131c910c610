#!/usr/bin/env bash
# Builds and runs the bench: bench/run.sh [bench's options]. Peers come from Debian's packages, installed when missing
# and when that is possible; the bench says which it has. Give --svg docs/bench.svg to draw the picture.
set -euo pipefail
cd "$(dirname "${BASH_SOURCE[0]}")/.."
archive=$(bash bench/archive.sh)
built=target/bench
mkdir -p "$built"

has() { dpkg-query -W -f '${Status}' "$1" 2>/dev/null | grep -q 'ok installed'; }
missing=()
for package in g++ re2c libre2-dev libpcre2-dev libtre-dev libonig-dev librust-regex+default-dev; do
  has "$package" || missing+=("$package")
done
if [ ${#missing[@]} -gt 0 ]; then
  sudo=$([ "$(id -u)" = 0 ] || echo sudo)
  { $sudo apt-get update && for package in "${missing[@]}"; do
      $sudo apt-get install -y --no-install-recommends "$package" || echo "bench: no $package"
    done; } >"$built/install.log" 2>&1 || echo "bench: packages missing, see $built/install.log" >&2
fi

have=() objects=() libraries=()
use() { # use PACKAGE MACRO LIBRARY..
  if has "$1"; then have+=("-D$2"); libraries+=("${@:3}"); fi
}
use libre2-dev HAVE_RE2 -lre2
use libpcre2-dev HAVE_PCRE2 -lpcre2-8
use libtre-dev HAVE_TRE -ltre
use libonig-dev HAVE_ONIG -lonig
gcc -std=c11 -O3 -Wall -Wextra -pedantic -c bench/plain.c -o "$built/plain.o"
objects+=("$built/plain.o")
# re2c's functions are part of the cases: without re2c they are absent and the engine is left out.
if has re2c; then
  re2c -W -T -i --no-generation-date bench/peers.re -o "$built/peers.c"
else
  sed -n 's/^\(int re2c_[a-z]*\)(at s, int32_t \*p) {$/\1(const unsigned char *s, int32_t *p) { (void)s; (void)p; return 0; }/p' \
    bench/peers.re | cat <(echo '#include "bench.h"') - >"$built/peers.c"
fi
has re2c && have+=(-DHAVE_RE2C)
gcc -std=c11 -O3 -Ibench -c "$built/peers.c" -o "$built/peers.o"
objects+=("$built/peers.o")
if has librust-regex+default-dev && cargo build --quiet --offline --release --manifest-path bench/rust-regex/Cargo.toml \
    --target-dir "$built/rust-regex" --config 'source.crates-io.replace-with="debian"' \
    --config 'source.debian.directory="/usr/share/cargo/registry"' >"$built/rust-regex.log" 2>&1; then
  have+=(-DHAVE_RUST_REGEX)
  libraries+=("$built/rust-regex/release/librust_regex.a" -lpthread -ldl)
fi
cargo build --quiet --offline --release --manifest-path bench/plain-builder/Cargo.toml --target-dir "$built/plain-builder"
libraries+=("$built/plain-builder/release/libplain_builder.a" -lpthread -ldl)
g++ -std=c++17 -O3 -Wall -Wextra "${have[@]}" bench/bench.cpp "${objects[@]}" "$archive" "${libraries[@]}" \
  -o "$built/bench"
kind=$(sed -n 's/^model name[^:]*: *//p' /proc/cpuinfo | head -n 1)
exec "$built/bench" --date "$(date +%F)" --class "$(nproc) cores, ${kind:-$(uname -m)}" "$@"
