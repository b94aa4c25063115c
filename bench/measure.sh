#!/bin/sh
# Executed instructions of the proved calls against C by hand, and of reading against UHD: what `make speed` runs.
# It builds everything for x86-64 and counts under qemu, so that the numbers are the same on every machine.
set -eu
cd "$(dirname "$0")/.."
needed='python3 gcc g++ libc6-dev qemu-user libuhd-dev libboost-dev'
if [ "$(uname -m)" = x86_64 ]; then
    export CC=gcc CXX=g++
else
    needed="$needed gcc-x86-64-linux-gnu g++-x86-64-linux-gnu libc6-dev-amd64-cross"
fi
tools/from_debian 'make speed' $needed
make -s lib
for part in calls small play index payload; do
    echo
    echo "bench/$part/measure.sh"
    "bench/$part/measure.sh"
done
export LIBRARY=target/staticlib/libvrt49.a
echo
echo 'bench/play/measure.sh, of the whole library'
bench/play/measure.sh
for part in calls small play index; do
    echo
    echo "bench/$part/measure.sh, of the whole library, against C with its loops over fields unrolled"
    BY_HAND=by_hand_tighter.c "bench/$part/measure.sh"
done
echo
echo 'bench/uhd/measure.sh'
bench/uhd/measure.sh
echo
echo 'counted: each call of the library; play_run and the table test; an index grown and jumped in; unpack and pack by width; reading a header by UHD'
