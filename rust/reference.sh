#!/usr/bin/env bash
# Tests the reference and the generated inputs alone, which need neither the library nor the prover. Needs no network.
set -euo pipefail
cd "$(dirname "$0")"
command -v cargo > /dev/null || {
    echo "$0: needs cargo (Debian: cargo)" >&2
    exit 1
}
start=$SECONDS
cargo test --offline --release --quiet -p reference -p cases --test '*'
echo "rust/reference.sh: all passed, $((SECONDS - start)) s"
