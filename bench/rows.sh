# For bench/calls, bench/small and bench/index, which source it with `here` set to their folder: builds its drive.c with C by hand and with libvrt49.a, counts the
# instructions of a call on both sides, and compares what they answer. BY_HAND=by_hand_tighter.c takes the tighter C of bench/play.
CC=${CC:-x86_64-linux-gnu-gcc}
INSNCOUNT=${INSNCOUNT:-tools/insncount}
LIB=${LIB:-target/staticlib/libvrt49.a}
work=${WORK:-$(mktemp -d)}
[ -n "${WORK:-}" ] || trap 'rm -rf "$work"' EXIT
trap 'exit 1' HUP INT TERM
n=1000
built() { # FILE ..: those of C by hand
    $CC -O2 -static -DSIDE=c -DBY_HAND="\"../play/${BY_HAND:-by_hand.c}\"" "$here/drive.c" "$@" -o "$work/c"
    $CC -O2 -static -DSIDE=vrt49 "$here/drive.c" "$LIB" -o "$work/r"
    echo 'call           of                                  C by hand    proved  ratio  results'
}
counted() { "$INSNCOUNT" "$@" 2>&1 | sed -n 's/^instructions //p'; }
cost() { # PROGRAM CALL KIND SIZE: the instructions of n calls, without those of the set-up and of the choice of the call
    echo $(($(counted "$1" "$2" "$3" "$4" $((2 * n))) - $(counted "$1" "$2" "$3" "$4" $n)))
}
row() { # CALL KIND SIZE WHAT [ANSWER]: what the calls answer, if they are not accepted
    c=$(cost "$work/c" "$1" "$2" "$3") r=$(cost "$work/r" "$1" "$2" "$3")
    c_says=$("$INSNCOUNT" "$work/c" "$1" "$2" "$3" $n 2>/dev/null) r_says=$("$INSNCOUNT" "$work/r" "$1" "$2" "$3" $n 2>/dev/null)
    [ "$c_says" = "$r_says" ] && same=equal || same=DIFFER
    case $r_says in "${5:-0} "*) ;; *) same="ANSWERS ${r_says%% *}" ;; esac
    awk -v k="$1" -v w="$4" -v c="$c" -v r="$r" -v n=$n -v s=$same 'BEGIN { printf "%-14s %-34s %10.1f %9.1f  %.3f  %s\n", k, w, c / n, r / n, r / c, s }'
}
