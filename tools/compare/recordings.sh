#!/bin/sh
# Plays each recording of samples/recordings with vrtplay and holds what it prints against the reference's text: from the
# file, through a pipe that gives 1 to 7 bytes at a time, and, for those of 65,536 bytes or more, with more bytes after it.
# VRTPLAY is the command to run; without it the program is proved first, and run as tools/run leaves it.
set -eu
cd "$(dirname "$0")/../.."
here=tools/compare
work=$(mktemp -d)
trap 'rm -rf "$work"' EXIT
if [ -z "${VRTPLAY:-}" ]; then
    tools/run vrtplay </dev/null >/dev/null 2>"$work/log" || [ -e target/bin/vrtplay ] || { tail -20 "$work/log"; exit 1; }
    VRTPLAY=target/bin/vrtplay
    [ "$(uname -m)" = x86_64 ] || VRTPLAY="qemu-x86_64 -L /usr/x86_64-linux-gnu $VRTPLAY"
fi
held() { # HOW RECORDING EXPECTED: what was printed is as expected
    if ! cmp -s "$work/said" "$3"; then
        echo "vrtplay, $2, $1: what it prints differs from $3:"
        diff "$3" "$work/said" | head -10
        exit 1
    fi
}
files=0 pipes=0 longer=0
for recording in samples/recordings/*.vrt; do
    text=${recording%.vrt}.txt
    $VRTPLAY <"$recording" >"$work/said"
    held 'from the file' "$recording" "$text"
    files=$((files + 1))
    python3 -B $here/by_pieces.py "$recording" | $VRTPLAY >"$work/said"
    held 'by 1 to 7 bytes' "$recording" "$text"
    pipes=$((pipes + 1))
    if [ "$(wc -c <"$recording")" -ge 65536 ]; then
        cat "$recording" samples/recordings/*.vrt >"$work/longer"
        $VRTPLAY <"$work/longer" >"$work/said"
        held 'with more bytes after it' "$recording" "$text"
        cat "$work/longer" | $VRTPLAY >"$work/said"
        held 'with more bytes after it, by a pipe' "$recording" "$text"
        python3 -B $here/by_pieces.py "$work/longer" | $VRTPLAY >"$work/said"
        held 'with more bytes after it, by 1 to 7 bytes' "$recording" "$text"
        longer=$((longer + 3))
    fi
done
echo "vrtplay: $files recordings from files, $pipes by 1 to 7 bytes, $longer longer than it reads"
