#!/bin/sh
# Instructions executed for each of the smaller calls of libvrt49.a, against C by hand; the results are compared.
# Run it at the project's root: bench/small/measure.sh, after `make lib`. It needs x86_64-linux-gnu-gcc (or CC set) and Debian's qemu-user.
# BY_HAND=by_hand_tighter.c measures against the tighter C.
set -eu
here=$(cd "$(dirname "$0")" && pwd)
. "$here/../rows.sh"
built "$here/by_hand.c" "$here/formats.c"
row trailer_parts - 1 'a word'
row trailer_word - 1 'its four parts'
row field_count small 1 'an indicator of 6 fields'
for kind in small large; do
    row check_body $kind 1 "6 fields, $kind first words"
    row find $kind 1 "the last of 6 fields, $kind"
done
row words_needed link 1440 '1,440 items, link-efficient'
row words_needed processing 1440 '1,440 items, processing-efficient'
for kind in channel component; do
    row coordinates_of $kind 4800 "4,800 items, $kind repeating"
    row item_at $kind 4800 "4,800 items, $kind repeating"
done
row signed - 12 'an item of 12 bits'
row signed - 64 'an item of 64 bits'
for s in 1 32; do
    row start - $s "S $s"
done
for s in 1 32; do
    row well_made all $s "20 fields held, S $s"
done
for call in well_made page_length identity counts own_table changed; do
    for s in 1 32; do
        row $call - $s "6 fields held, S $s"
    done
done
