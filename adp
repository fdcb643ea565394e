#!/usr/bin/env bash
# Runs the proved program on a capture and prints its lines:  ./adp CAPTURE     (- is standard input)
#
# It is proved and built first where that is needed (tools/build). What is said on standard error is about the building, and about the
# field in which a run ended with E.
set -eu
as_called=$(dirname "${BASH_SOURCE[0]}")
here=$(cd "$as_called" && pwd)

usage() {
    cat <<'USAGE'
usage: ./adp CAPTURE     (- is standard input)

Runs the proved program on a capture of tagged fields and prints a line for each:
S a setup, P a message PDU, C a clock, A an alive signal; E where a bad or cut field ends the run.
It is proved and built first where that is needed (some minutes the first time).

examples/ has captures; second/README.md says how they are made from readable texts.
USAGE
}

say() { printf 'adp: %s\n' "$*" >&2; }
fail() {
    say "$2"
    exit "$1"
}

# ---- running

# Runs the program on the file $1, or on standard input, of which a copy is kept there (it is written before the program reads the
# octets); what is printed is kept in $2 too.
run_on() {
    "$here/tools/run" capture <"$1" | tee "$2"
    return "${PIPESTATUS[0]}"
}
run_on_input() {
    { tee /dev/fd/3 >"$1"; } 3>&1 | "$here/tools/run" capture | tee "$2"
    return "${PIPESTATUS[1]}"
}

# Where a run ends in E: walks the heads of the fields, "tag octet, two-octet length", and says which is bad or cut.
first_wrong_field() {
    od -An -v -tu1 "$1" | awk '
        function ended(why) {
            printf "the run ended at octet %d, in field %d (tag %d): %s\n", start, field, head[1], why
            told = 1
            exit
        }
        function judge() {
            size = 256 * head[2] + head[3]
            if (head[1] < 1 || head[1] > 4) ended("bad tag, there are only 1 to 4")
            if (head[1] == 1 && size != 10 && size != 13 && size != 16 && size != 19)
                ended("bad length " size ", a setup has 10, 13, 16 or 19 octets")
            if (head[1] == 3 && size != 8) ended("bad length " size ", a clock has 8 octets")
            left = size
        }
        BEGIN { start = 1; field = 1; got = 0 }
        {
            for (i = 1; i <= NF; i++) {
                if (got < 3) {
                    head[++got] = $i
                    if (got < 3) continue
                    judge()
                } else {
                    step = left < NF - i + 1 ? left : NF - i + 1
                    left -= step
                    i += step - 1
                }
                if (left == 0) { start += 3 + size; field++; got = 0 }
            }
        }
        END {
            if (told || got == 0) exit
            if (got < 3) ended("cut, " got " of the 3 octets of its head are there")
            ended("cut, " size - left " of its " size " octets are there")
        }
    '
}

# Whether the file begins with text: no control character but tab, newline and return.
is_text() { [ "$(head -c 512 "$1" | LC_ALL=C tr -d '\11\12\15\40-\176\200-\377' | wc -c)" -eq 0 ]; }

# Says why the run on the capture $1 ended. Octets and fields are counted from 1.
tell_end() {
    local second="cargo run --quiet --offline --manifest-path $as_called/second/Cargo.toml -- capture"
    local text=$1
    say "$(first_wrong_field "$1")"
    is_text "$1" || return 0
    [ "$1" != "$room/capture" ] || text=TEXT
    say 'the input looks like text; this makes a capture of a text and runs it:'
    say "  $second <$text | $as_called/adp -"
}

# ---- the call

case ${1-} in -h | --help) usage; exit 0 ;; esac
[ $# -eq 1 ] || fail 2 'one word is needed: ./adp CAPTURE (- is standard input; --help says more)'
if [ "$1" != - ]; then
    [ -e "$1" ] || fail 2 "there is no file $1"
    [ ! -d "$1" ] || fail 2 "$1 is a folder, not a capture"
    [ -r "$1" ] || fail 2 "$1 cannot be read"
fi
"$here/tools/build" capture || fail $? 'the program is not built'

room=$(mktemp -d)
trap 'rm -rf "$room"' EXIT
if [ -f "$1" ]; then
    capture=$1
    run_on "$capture" "$room/lines"
else
    [ "$1" = - ] || exec <"$1"
    capture=$room/capture
    run_on_input "$capture" "$room/lines"
fi
if [ "$(tail -n 1 "$room/lines")" = E ]; then tell_end "$capture"; fi
