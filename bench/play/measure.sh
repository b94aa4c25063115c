#!/bin/sh
# Instructions executed for each packet of a run, the proved play_run against C by hand, 10,000 packets; and those of the test of the table, for each stream.
# Run it at the project's root: bench/play/measure.sh. It needs x86_64-linux-gnu-gcc (or CC set) and Debian's qemu-user.
# BY_HAND=by_hand_tighter.c measures against the tighter C.
# The call is exported by a crate that is made in a temporary folder from calls.txt; LIBRARY=target/staticlib/libvrt49.a measures that of the
# whole library.
set -eu
here=$(cd "$(dirname "$0")" && pwd)
CC=${CC:-x86_64-linux-gnu-gcc}
INSNCOUNT=${INSNCOUNT:-tools/insncount}
case $INSNCOUNT in /*) ;; *) INSNCOUNT=$PWD/$INSNCOUNT ;; esac
work=${WORK:-$(mktemp -d)}
[ -n "${WORK:-}" ] || trap 'rm -rf "$work"' EXIT
trap 'exit 1' HUP INT TERM
mkdir -p "$work"
if [ -z "${LIBRARY:-}" ]; then
    mkdir -p "$work/crates/play_c/src"
    for c in words fields packet_survey packet record table play; do
        rm -rf "$work/crates/$c"
        mkdir -p "$work/crates/$c"
        for part in src specs proofs; do # what is proved of them already rt takes itself
            [ ! -d "crates/$c/$part" ] || cp -R "crates/$c/$part" "$work/crates/$c/"
        done
    done
    cp "$here/calls.txt" "$work/crates/play_c/src/lib.rt"
    { grep -E '^(words|fields|packet_survey|packet|record|table|play):' crates.txt; echo 'play_c staticlib: words fields packet_survey packet record table play'; } >"$work/crates.txt"
    (cd "$work/crates/play_c" && rt lib >"$work/log" 2>&1) || { tail -5 "$work/log"; exit 1; }
    set -- "$work/crates/play_c/out/libplay_c.a"
else
    set -- -Iinclude "$here/library.c" "$LIBRARY"
fi
$CC -O2 -c "$here/${BY_HAND:-by_hand.c}" -o "$work/by_hand.o"
$CC -O2 -static -DFN=c_play_run "$here/drive.c" "$work/by_hand.o" -o "$work/c"
$CC -O2 -static -DFN=r_play_run "$here/drive.c" "$@" -o "$work/r"
n=10000
counted() { "$INSNCOUNT" "$@" $n 2>&1 | sed -n 's/^instructions //p'; }
between() { # PROGRAM MODE MODE KIND STREAMS: the instructions of one mode of drive.c without those of another
    echo $(($(counted "$1" "$2" "$4" "$5") - $(counted "$1" "$3" "$4" "$5")))
}
compared() { [ "$("$INSNCOUNT" "$work/c" "$@" $n 2>/dev/null)" = "$("$INSNCOUNT" "$work/r" "$@" $n 2>/dev/null)" ] && echo equal || echo DIFFER; }
row() { # WHAT STREAMS PARTS C PROVED RESULTS
    awk -v w="$1" -v s="$2" -v n="$3" -v c="$4" -v r="$5" -v e="$6" 'BEGIN { printf "%-36s %6d %9.2f %8.2f  %.3f  %s\n", w, s, c / n, r / n, r / c, e }'
}
echo 'call                                 streams C by hand   proved  ratio  results'
for k in 0 4 1 3 5; do
    case $k in 0) what=data ;; 4) what='49A data' ;; 1) what='context of 6 fields' ;; 3) what='6 fields, 22 and 16 too' ;; *) what='data, refused: STREAM' ;; esac
    for s in 1 32; do
        row "a packet: $what" $s $n "$(between "$work/c" 2 1 $k $s)" "$(between "$work/r" 2 1 $k $s)" "$(compared 2 $k $s)"
    done
done
for s in 1 32; do
    row 'table test, a stream: started' $s $s "$(between "$work/c" 1 0 1 $s)" "$(between "$work/r" 1 0 1 $s)" "$(compared 1 1 $s)"
    row 'table test, a stream: after context' $s $s "$(between "$work/c" 3 2 1 $s)" "$(between "$work/r" 3 2 1 $s)" "$(compared 3 1 $s)"
done
for s in 1 3 32; do
    echo "packets of all types, some refused, and tables with a bit changed, $s streams: $(compared 4 2 $s)"
done
