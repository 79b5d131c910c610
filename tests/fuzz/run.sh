#!/usr/bin/env bash
# Fuzzes the exported calls: tests/fuzz/run.sh [SECONDS], 120 if not given. libFuzzer through clang; with FUZZER=afl, AFL++.
# What breaks a promise is left as a file in target/fuzz/found, and the script fails.
set -euo pipefail
cd "$(dirname "${BASH_SOURCE[0]}")/../.."
seconds=${1:-120}
fuzzer=${FUZZER:-libfuzzer}
archive=target/staticlib/libexport.a
bash tools/link.sh export
built=target/fuzz
mkdir -p "$built/corpus" "$built/found"
need() { # need COMMAND PACKAGE..
  command -v "$1" >/dev/null && return
  sudo=$([ "$(id -u)" = 0 ] || echo sudo)
  { $sudo apt-get update && $sudo apt-get install -y --no-install-recommends "${@:2}"; } >"$built/install.log" 2>&1
}
python3 tests/fuzz/seeds.py "$built/seeds"
sources=(tests/fuzz/harness.c bench/plain.c)
case $fuzzer in
libfuzzer)
  need clang clang libclang-rt-dev
  clang -g -O1 -fsanitize=fuzzer,address,undefined -fno-sanitize-recover=all "${sources[@]}" "$archive" -o "$built/fuzz"
  nice -n 19 "$built/fuzz" -max_total_time="$seconds" -max_len=4096 -artifact_prefix="$built/found/" -print_final_stats=1 \
    "$built/corpus" "$built/seeds"
  ;;
afl)
  need afl-fuzz afl++
  AFL_QUIET=1 afl-clang-fast -g -O1 -fsanitize=fuzzer "${sources[@]}" "$archive" -o "$built/fuzz-afl"
  rm -rf "$built/afl"
  AFL_SKIP_CPUFREQ=1 AFL_I_DONT_CARE_ABOUT_MISSING_CRASHES=1 AFL_NO_UI=1 AFL_NO_AFFINITY=1 nice -n 19 \
    afl-fuzz -V "$seconds" -i "$built/seeds" -o "$built/afl" -- "$built/fuzz-afl" >"$built/afl.log"
  grep -E '^(execs_done|corpus_count|saved_crashes|saved_hangs|bitmap_cvg)' "$built/afl/default/fuzzer_stats"
  grep -qE '^saved_crashes +: 0$' "$built/afl/default/fuzzer_stats"
  ;;
*)
  echo "FUZZER is libfuzzer or afl" >&2
  exit 2
  ;;
esac
echo "fuzz: nothing broken in $seconds s"
