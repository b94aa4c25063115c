#!/bin/sh
# Instructions executed for each data packet whose header is read: UHD's if_hdr_unpack_be, which also swaps the words' bytes,
# its if_hdr_unpack_le, which does not, and the proved vrt49_read. Run it at the project's root: bench/uhd/measure.sh
# It needs Debian's qemu-user, libuhd-dev and libboost-dev, and x86_64-linux-gnu-g++ (or CXX set). On another processor than
# x86-64 Debian's libuhd for x86-64 is fetched into a folder of its own (UHD_ROOT, if set); nothing is installed.
# LIBRARY names a libvrt49.a that is made already.
set -eu
here=$(cd "$(dirname "$0")" && pwd)
CXX=${CXX:-x86_64-linux-gnu-g++}
INSNCOUNT=${INSNCOUNT:-tools/insncount}
work=${WORK:-$(mktemp -d)}
[ -n "${WORK:-}" ] || trap 'rm -rf "$work"' EXIT
trap 'exit 1' HUP INT TERM
mkdir -p "$work"
library=${LIBRARY:-target/staticlib/libvrt49.a}
[ -n "${LIBRARY:-}" ] || tools/library "$work/log"
link=-luhd load=
if [ "$(uname -m)" != x86_64 ]; then
    root=${UHD_ROOT:-$work/uhd}
    uhd=$(ls "$root"/usr/lib/x86_64-linux-gnu/libuhd.so.* 2>/dev/null || true)
    if [ -z "$uhd" ]; then
        apt=$work/apt
        mkdir -p "$root" "$apt/state/lists/partial" "$apt/cache/archives/partial"
        : >"$apt/status"
        printf '%s\n' "Dir::State \"$apt/state\";" "Dir::State::status \"$apt/status\";" "Dir::Cache \"$apt/cache\";" \
            'APT::Architecture "amd64";' 'APT::Architectures { "amd64"; };' >"$apt/conf"
        package=$(dpkg-query -W -f '${Depends}' libuhd-dev | grep -o 'libuhd[0-9.]*[0-9]' | head -1)
        {
            APT_CONFIG=$apt/conf apt-get update -q
            APT_CONFIG=$apt/conf apt-get install -y -q --no-install-recommends --download-only "$package"
        } >"$work/log" 2>&1 || { tail -5 "$work/log"; exit 1; }
        for deb in "$apt"/cache/archives/*.deb; do dpkg-deb -x "$deb" "$root"; done
        uhd=$(ls "$root"/usr/lib/x86_64-linux-gnu/libuhd.so.*)
    fi
    lib=$root/lib/x86_64-linux-gnu
    load="$lib/ld-linux-x86-64.so.2 --library-path $lib:$root/usr/lib/x86_64-linux-gnu"
    link="$uhd -Wl,--allow-shlib-undefined"
    mkdir -p "$work/include" # the headers that are for every processor
    ln -sfn /usr/include/uhd "$work/include/uhd"
    ln -sfn /usr/include/boost "$work/include/boost"
fi
$CXX -O2 -DUHD=if_hdr_unpack_be -DBIG_ENDIAN_WORDS -I"$work/include" "$here/drive.cpp" -o "$work/be" $link
$CXX -O2 -DUHD=if_hdr_unpack_le -I"$work/include" "$here/drive.cpp" -o "$work/le" $link
$CXX -O2 -no-pie -Iinclude "$here/drive.cpp" "$library" -o "$work/r"
n=1000 # the packets that drive.cpp makes
counted() { "$INSNCOUNT" $load "$@" 2>&1 >/dev/null | sed -n 's/^instructions //p'; }
each() { # PROGRAM KIND: instructions of one call
    awk -v a="$(counted "$work/$1" "$2" 3)" -v b="$(counted "$work/$1" "$2" 2)" -v n=$n 'BEGIN { printf "%.2f", (a - b) / n }'
}
result() { "$INSNCOUNT" $load "$work/$1" "$2" 1 2>/dev/null || echo "$1 fails"; }
echo 'a data packet with identifier and      UHD be   UHD le   proved  results'
while read -r kind what; do
    same=DIFFER
    [ "$(result be "$kind")" = "$(result r "$kind")" ] && [ "$(result le "$kind")" = "$(result r "$kind")" ] && same=equal
    printf '%-36s %8s %8s %8s  %s\n' "$what" "$(each be "$kind")" "$(each le "$kind")" "$(each r "$kind")" "$same"
done <<ROWS
0 nothing more
6 seconds and fraction
14 seconds, fraction and trailer
15 class, seconds, fraction and trailer
ROWS
