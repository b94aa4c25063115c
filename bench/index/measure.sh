#!/bin/sh
# Instructions executed for each call of an index of libvrt49.a, against C by hand; the results are compared. Data packets of 64 body words, and of each stream
# every 32nd a context packet of 6 fields.
# Run it at the project's root: bench/index/measure.sh, after `make lib`. It needs x86_64-linux-gnu-gcc (or CC set) and Debian's qemu-user.
# BY_HAND=by_hand_tighter.c measures against the tighter C.
set -eu
here=$(cd "$(dirname "$0")" && pwd)
. "$here/../rows.sh"
built "$here/by_hand.c"
for s in 1 8 32; do
    n=100
    row start_index - $s "6 fields held, S $s"
    n=500 # packets 500 to 999, behind which there is no entry
    row grow early $s "a packet, 1 entry, S $s"
    row grow late $s "a packet, 1,000 entries, S $s"
    n=1500 # packets 1,500 to 2,999, behind one of which there is an entry
    row grow early $s "a packet, 2 and 3 entries, S $s"
    n=100
    row boundary early $s "a packet to an entry, 3, S $s"
    row boundary late $s "a packet to an entry, 1,000, S $s"
done
for s in 1 8 32; do
    n=20
    row jump 0 $s "over 0 packets, 3 entries, S $s"
    row jump 512 $s "over 512 packets, 3 entries, S $s"
    row jump 1023 $s "over 1,023 packets, 3 entries, S $s"
    row jump -1023 $s "over 1,023, 1,000 entries, S $s"
    n=50000 # packets 50,000 to 99,999
    row play - $s "a packet of a run of 100,000, S $s"
done
