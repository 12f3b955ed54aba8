#!/usr/bin/env bash
# Tests the tests: plants the faults of mutants.txt, one at a time, in a copy of the reference, builds the stand-in library over
# it, and runs the differential tests against that. Each fault must be found. With words, only the lines that have one of them.
set -euo pipefail
cd "$(dirname "$0")"
work=target/mutants
rm -rf "$work/lib"
mkdir -p "$work/src" "$work/lib"

build() { # builds the stand-in of $work/src into $work/lib
    (cd "$work/src" && CARGO_TARGET_DIR=../build cargo build --offline --release --quiet -p standin)
    cp "$work/build/release/libstandin.so" "$work/lib/libheolstorpit.so"
}
copy() {
    rm -rf "$work/src"
    mkdir -p "$work/src"
    cp -r reference standin "$work/src/"
    sed 's/^members = .*/members = ["reference", "standin"]/' Cargo.toml > "$work/src/Cargo.toml"
}

# The tests, linked once to the stand-in as a shared library; first over the reference as it is, where they pass.
copy
build
export HEOLSTORPIT_LIB_KIND=dylib HEOLSTORPIT_LIB_DIR="$PWD/$work/lib" LD_LIBRARY_PATH="$PWD/$work/lib"
export CARGO_TARGET_DIR="$PWD/$work/tests"
cargo test --offline --release --quiet -p heolstorpit --no-run
tests() { # the test binary of a group
    ls -t "$CARGO_TARGET_DIR/release/deps/$1"-* | grep -v '\.d$' | head -n 1
}

chosen() { # is the line asked for?
    line=$1
    shift
    [ $# -gt 0 ] || return 0
    for word in "$@"; do
        case $line in *"$word"*) return 0 ;; esac
    done
    return 1
}

found=0
missed=0
while IFS= read -r line; do
    case $line in '#'* | '') continue ;; esac
    chosen "$line" "$@" || continue
    group=${line%% *}
    rest=${line#* }
    file=${rest%% *}
    change=${rest#* :: }
    OLD=$(printf '%b' "${change%%==>*}")
    NEW=$(printf '%b' "${change#*==>}")
    OLD=${OLD% }
    NEW=${NEW# }
    export OLD NEW
    copy
    perl -0pi -e 'BEGIN { $n = 0 } $n += s/\Q$ENV{OLD}\E/$ENV{NEW}/; END { exit 1 unless $n }' "$work/src/reference/src/$file" || {
        echo "not there: $line"
        exit 2
    }
    if ! (unset CARGO_TARGET_DIR; build) 2> "$work/log"; then
        echo "does not compile: $line"
        cat "$work/log"
        exit 2
    fi
    if bash -c '"$0" --quiet || exit 1' "$(tests "$group")" > "$work/log" 2>&1; then
        echo "MISSED  $line"
        missed=$((missed + 1))
    else
        echo "found   $line"
        found=$((found + 1))
    fi
done < mutants.txt
echo "$found faults found, $missed missed"
[ "$missed" = 0 ]
