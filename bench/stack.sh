#!/usr/bin/env bash
# Measures the stack that each call uses, in bytes: bench/stack.sh [FOLDER OF VECTORS]
set -euo pipefail
cd "$(dirname "${BASH_SOURCE[0]}")/.."
archive=$(bash bench/archive.sh)
built=target/bench
mkdir -p "$built"
gcc -std=gnu11 -O2 -Wall -Wextra bench/stack.c "$archive" -lpthread -o "$built/stack"
shopt -s nullglob
exec "$built/stack" "${1:-../shared/vectors}"/*.txt
