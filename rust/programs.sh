#!/usr/bin/env bash
# Runs the proved programs as they are used: `receive` writes the log of the sample stream, byte for byte the stored one, and the rest to
# standard error; `show_log` prints this log, and damaged copies of it (programs/damaged.txt) up to the field at fault; and `receive` makes room
# for large packets. Needs no network.
set -euo pipefail
cd "$(dirname "$0")/.."
for program in receive show_log; do
    [ -x "crates/$program/out/$program" ] || {
        echo "$0: needs crates/$program/out/$program (rt run in crates/$program)" >&2
        exit 1
    }
done
start=$SECONDS
stream=crates/receive/stdin printed=crates/receive/stdout
log=crates/show_log/stdin shown=crates/show_log/stdout
work=$(mktemp -d)
trap 'rm -rf "$work"' EXIT

same() { # what is compared, on standard input the one, and a file the other
    cmp - "$2" || {
        echo "rust/programs.sh: $1 differs" >&2
        exit 1
    }
}

# a log, and the frames in it are those that are printed without `log`
crates/receive/out/receive 2 1 97 121 log < "$stream" 2> "$work/said" | tee "$work/log" | crates/show_log/out/show_log > "$work/shown"
same 'the log that receive writes' "$log" < "$work/log"
grep -v -e '^[0-9]' -e '^gap from ' "$printed" | same 'what receive says beside the log' "$work/said"
same 'what show_log prints of it' "$shown" < "$work/shown"
sed '1d;$d' "$work/shown" > "$work/frames"
sed -n 's/^\([0-9].*\) [a-z-]*$/\1/p' "$printed" | same 'the frames that receive prints' "$work/frames"

set_byte() { # the log with the byte at this place set
    head -c "$1" "$log"
    printf '%b' "\\x$2"
    tail -c "+$(($1 + 2))" "$log"
}
damage() { # a damaged copy of the log
    case $1 in
        empty) ;;
        cut) head -c "$2" "$log" ;;
        set) set_byte "$2" "$3" ;;
        after)
            cat "$log"
            printf '%b' "\\x$2"
            ;;
        *) return 1 ;;
    esac
}

# so many lines of what is printed of the log, and then the refusal
cases=0
while IFS='|' read -r how lines last; do
    case $how in '#'* | '') continue ;; esac
    # shellcheck disable=SC2086
    damage $how > "$work/damaged"
    { head -n "$lines" "$shown" && echo "$last"; } > "$work/expected"
    crates/show_log/out/show_log < "$work/damaged" | same "what show_log prints of the log damaged by $how" "$work/expected"
    cases=$((cases + 1))
done < rust/programs/damaged.txt
[ "$cases" -gt 0 ]
# room is made before a packet is offered, as far as the order allows
bytes() { # numbers as bytes
    printf '%b' "$(printf '\\x%02x' "$@")"
}
header() { # a length and an RTP header: bytes behind the header, type, sequence number, frames since the start, 50 frames before the wrap
    local size=$((12 + $1)) time=$(((4294959296 + 160 * $4) & 4294967295))
    bytes $((size / 256)) $((size % 256)) 0x80 "$2" 0 "$3" $((time >> 24)) $((time >> 16 & 255)) $((time >> 8 & 255)) $((time & 255)) 0 0 0 1
}
entries() { # so many AMR entries of a type (RFC 4867: F, FT, Q), behind the mode request
    local i
    bytes 0xF0
    for ((i = 1; i < $1; i++)); do bytes $((132 + 8 * $2)); done
    bytes $((4 + 8 * $2))
}
payload() { # so many SIDs
    local i
    entries "$1" 8
    for ((i = 0; i < $1; i++)); do bytes 1 2 3 4 5; done
}
sids() { # a packet: sequence number, first frame, SIDs
    header $((1 + 6 * $3)) 97 "$1" "$2"
    payload "$3"
}
no_data() { # a packet: sequence number, first frame, frames of no data
    header $((1 + $3)) 97 "$1" "$2"
    entries "$3" 15
}
twice() { # a packet of 160 SIDs and, in a redundant block (RFC 2198: offset, length), the 102 before them: sequence number, first frame
    header $((5 + 613 + 961)) 121 "$1" "$2"
    bytes $((128 + 97)) $((16320 >> 6)) $(((16320 & 63) << 2 | 613 >> 8)) $((613 & 255)) 97
    payload 102
    payload 160
}
verdicts() { # what is compared, packets, frames, repeated, late, no room; the stream on standard input
    echo "packets $2, refused 0, frames $3, inserted $3, repeated $4, better 0, late $5, far 0, no room $6" > "$work/expected"
    crates/receive/out/receive 4 1 97 121 | grep '^packets ' | same "$1" "$work/expected"
}
{ sids 1 0 100 && sids 2 100 150; } | verdicts 'room made for a packet of 150 frames' 2 250 0 0 0
sids 1 0 339 | verdicts 'a packet of 339 frames, of which 192 have room' 1 192 0 0 147
{ sids 2 200 60 && sids 1 0 150; } | verdicts 'no room made by frames that come after the packet' 2 192 0 0 18
{ sids 1 0 50 && sids 3 100 50 && no_data 4 150 384 && sids 2 50 50; } | verdicts 'no room made for frames of no data' 4 150 0 0 0
{ sids 1 0 160 && for ((k = 1; k < 12; k++)); do twice $((k + 1)) $((160 * k)); done; } | verdicts 'room made beside redundant frames' 12 1920 352 770 0
echo "rust/programs.sh: all as stored (receive, show_log, $cases damaged logs, 5 streams of large packets), $((SECONDS - start)) s"
