#!/usr/bin/env bash
# Everything a caller relies on: the header compiles as C and C++, the C example prints what it should, the Rust crate's
# tests and documentation examples pass.
set -euo pipefail
cd "$(dirname "${BASH_SOURCE[0]}")/.."
bash include/check.sh
bash callers/c/run.sh
cargo test --offline --manifest-path callers/rust/Cargo.toml --target-dir target/callers-rust
