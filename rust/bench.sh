#!/usr/bin/env bash
# Prints the table of benchmarks. Takes libre's jbuf and speexdsp's jitter buffer along where Debian's libre-dev and libspeexdsp-dev are
# installed (apt-get install libre-dev libspeexdsp-dev).
#   bench.sh [read] [write] [buffer] [reception] [log]    only these functions; none named: all
#   HEOLSTORPIT_LIB_DIR                                   a folder with libheolstorpit.a, used as it is
set -euo pipefail
cd "$(dirname "$0")"
. ./archive.sh
has() { # do the calls of this peer compile?
    ${CC:-cc} -fsyntax-only -I/usr/include/re "-DHAVE_$1" bench/peers.c 2> /dev/null
}
if has LIBRE; then features+=libre,; fi
if has SPEEXDSP; then features+=speexdsp,; fi
cargo build --offline --profile measured --quiet -p bench --no-default-features --features "$features"
exec target/measured/bench
