#!/usr/bin/env bash
# Calls every function under valgrind, each area in a heap block of exactly its length, so that a byte read or written outside is seen;
# the answers are compared with the reference too. Needs no network.
#   memory.sh [read] [write] [buffer] [reception] [log]    only these functions; none named: all
#   HEOLSTORPIT_LIB_DIR                                    a folder with libheolstorpit.a, used as it is
set -euo pipefail
cd "$(dirname "$0")"
. ./archive.sh
need valgrind 'Debian: valgrind'
start=$SECONDS
link_c
cargo build --offline --release --quiet -p exact --no-default-features --features "$features"
valgrind --quiet --error-exitcode=1 target/link
valgrind --quiet --error-exitcode=1 target/release/exact
echo "rust/memory.sh: no error (${groups[*]}), $((SECONDS - start)) s after the archive"
