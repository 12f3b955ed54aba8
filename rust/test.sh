#!/usr/bin/env bash
# Tests the library from outside: builds the archive, compares every function with the reference over generated inputs, and calls the
# functions from C. Needs no network.
#   test.sh [read] [write] [buffer] [reception] [log]    only these functions; none named: all
#   HEOLSTORPIT_LIB_DIR                                  a folder with libheolstorpit.a, used as it is
#   REFERENCE_TESTED                                     set if reference.sh has passed already
set -euo pipefail
cd "$(dirname "$0")"
. ./archive.sh
start=$SECONDS
[ -n "${REFERENCE_TESTED:-}" ] || ./reference.sh
# shellcheck disable=SC2046
cargo test --offline --release --quiet -p heolstorpit --no-default-features --features "$features" --test conversions \
    $(printf -- '--test %s ' "${groups[@]}") -- --nocapture
cargo test --offline --release --quiet -p bench --no-default-features --features "$features" --test plain
link_c
target/link
echo "rust/test.sh: all passed (${groups[*]}), $((SECONDS - start)) s after the archive"
