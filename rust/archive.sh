# Sourced by the scripts beside it: takes the groups of functions from the arguments (none named: all), as $groups and as cargo's $features,
# and sees that HEOLSTORPIT_LIB_DIR is a folder with libheolstorpit.a: the one given, or the archive proved and built here.
need() { # says which program is missing, and where it is to be had
    command -v "$1" > /dev/null || {
        echo "$0: needs $1 ($2)" >&2
        exit 1
    }
}
need cargo 'Debian: cargo'
need "${CC:-cc}" 'Debian: gcc'
groups=("$@")
[ ${#groups[@]} -gt 0 ] || groups=(read write buffer reception log)
features=$(printf '%s,' "${groups[@]}")
if [ -z "${HEOLSTORPIT_LIB_DIR:-}" ]; then
    need rt 'the Rattle kit'
    mkdir -p ../target
    (cd ../crates/heolstorpit && rt lib) > ../target/built.log 2>&1 || {
        tail -n 30 ../target/built.log
        exit 1
    }
    HEOLSTORPIT_LIB_DIR=$(cd ../crates/heolstorpit/out && pwd)
    export HEOLSTORPIT_LIB_DIR
fi

link_c() { # builds c/link.c, which calls every function from C
    mkdir -p target
    # shellcheck disable=SC2046
    ${CC:-cc} -std=c99 -Wall -Wextra -Wpedantic -Werror -O1 -I../include $(printf -- '-DHAVE_%s ' "${groups[@]^^}") \
        c/link.c "$HEOLSTORPIT_LIB_DIR/libheolstorpit.a" -o target/link
}
