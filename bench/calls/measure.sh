#!/bin/sh
# Instructions executed for each call of libvrt49.a, against C by hand; the results are compared.
# Run it at the project's root: bench/calls/measure.sh, after `make lib`. It needs x86_64-linux-gnu-gcc (or CC set) and Debian's qemu-user.
# BY_HAND=by_hand_tighter.c measures against the tighter C.
set -eu
here=$(cd "$(dirname "$0")" && pwd)
. "$here/../rows.sh"
built "$here/by_hand.c" "$here/survey.c"
for call in read write; do
    row $call data 1 'data packet, 1 body word'
    row $call data 64 'data packet, 64 body words'
    row $call data 6400 'data packet, 6,400 body words'
    row $call context 1 'context packet of 6 fields'
    row $call large 1 'context packet, large first words'
done
row read broken 1 'context of 6 fields, last refused' $((10 + 256 * 18 + 65536 * 14)) # FIELD, bit 18, word 14
for call in read_survey write_survey; do
    row $call survey 1 '49A data packet, 1 body word'
    row $call survey 64 '49A data packet, 64 body words'
    row $call survey 6400 '49A data packet, 6,400 body words'
    row $call context 1 'context packet of 6 fields'
done
for s in 1 32; do
    row play data $s "data packet, S $s"
    row play survey $s "49A data packet, S $s"
    row play context $s "context packet of 6 fields, S $s"
done
for call in save put_back; do
    for s in 1 32; do
        row $call data $s "6 fields held, S $s"
    done
done
for s in 1 32; do
    row reading data $s "sample rate, 6 fields held, S $s"
    row readings data $s "6 fields held, S $s"
    row readings all $s "20 fields held, S $s"
    row held_words data $s "sample rate, 6 fields held, S $s"
done
