#!/bin/sh
# Instructions executed for each item, the calls of libvrt49.a against C by hand, in one run, with the results compared: unpacking for four numbers of items,
# against tighter C too (by_hand_tighter.c), and packing for 100,000 items.
# Run it at the project's root: bench/payload/measure.sh, after `make lib`. It needs x86_64-linux-gnu-gcc (or CC set) and Debian's qemu-user.
set -eu
here=$(cd "$(dirname "$0")" && pwd)
CC=${CC:-x86_64-linux-gnu-gcc}
LIB=${LIB:-target/staticlib/libvrt49.a}
INSNCOUNT=${INSNCOUNT:-tools/insncount}
case $INSNCOUNT in /*) ;; *) INSNCOUNT=$PWD/$INSNCOUNT ;; esac
work=${WORK:-$(mktemp -d)}
[ -n "${WORK:-}" ] || trap 'rm -rf "$work"' EXIT
trap 'exit 1' HUP INT TERM
for side in by_hand by_hand_tighter; do
    $CC -O2 -c "$here/$side.c" -o "$work/$side.o"
    $CC -O2 -static -DUNPACK=c_unpack -DPACK=c_pack "$here/drive.c" "$work/$side.o" -o "$work/$side"
done
$CC -O2 -static -DUNPACK=vrt49_unpack -DPACK=vrt49_pack "$here/drive.c" "$LIB" -o "$work/proved"
counted() { "$INSNCOUNT" "$@" 2>&1 | sed -n 's/^instructions //p'; }
count() { # PROGRAM MODE FORMAT.. N: the call's instructions, without the same program's set-up
    p=$1 m=$2; shift 2
    echo $(($(counted "$p" "$m" "$@") - $(counted "$p" $((m == 2 ? 3 : 0)) "$@")))
}
said() { # PROGRAM MODE FORMAT.. N: the answer and a sum of the buffers
    "$INSNCOUNT" "$@" 2>/dev/null
}
row() { # CALL MODE FORMAT N
    # shellcheck disable=SC2086
    c=$(count "$work/by_hand" "$2" $3 "$4") t=$(count "$work/by_hand_tighter" "$2" $3 "$4") r=$(count "$work/proved" "$2" $3 "$4")
    # shellcheck disable=SC2086
    of_c=$(said "$work/by_hand" "$2" $3 "$4") of_t=$(said "$work/by_hand_tighter" "$2" $3 "$4") of_r=$(said "$work/proved" "$2" $3 "$4")
    [ "$of_c" = "$of_r" ] && [ "$of_t" = "$of_r" ] && same=equal || same=DIFFER
    awk -v k="$1" -v f="$3" -v n="$4" -v c="$c" -v t="$t" -v r="$r" -v s=$same \
        'BEGIN { printf "%-7s %-17s %7d %10.2f %10.2f %8.2f  %.3f  %.3f  %s\n", k, f, n, c / n, t / n, r / n, r / c, r / t, s }'
}
echo 'call    format (below)          n  C by hand  tighter C   proved  to C  to tighter  results'
echo 'a format: link-efficient or not, bits of a field, of an item, of event tags, of the channel tag'
for f in '1 12 12 0 0' '1 16 16 0 0' '1 24 24 0 0' '0 12 12 0 0' '0 16 12 0 0' '1 8 8 0 0' '1 32 32 0 0' '1 33 33 0 0' '1 64 64 0 0' '1 16 12 1 2'; do
    for n in 12 360 1440 100000; do
        row unpack 1 "$f" $n
    done
    row pack 2 "$f" 100000
done
