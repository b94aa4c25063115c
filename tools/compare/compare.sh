#!/bin/sh
# Holds the header, the manual and the lists of calls to the source, libvrt49.a to the reference, to UHD and to tshark, vrtplay to its recordings, tools/capture to known packets, the
# examples to their output, over an installed copy, and vrtshow to the reference; ends at the first difference.
# It is what `make compare` runs. LIBRARY names a library that is made already, VRTPLAY a command that plays (recordings.sh, capture.py), PLAYER the file
# of vrtplay that is installed for a try (tools/install).
set -eu
cd "$(dirname "$0")/../.."
here=tools/compare
work=target/compare
mkdir -p "$work"

# what is needed from Debian
needed='python3 gcc g++ binutils-x86-64-linux-gnu libc6-dev libuhd-dev libboost-dev tshark python3-dpkt pkg-config'
cc=gcc
cxx=g++
run=
if [ "$(uname -m)" != x86_64 ]; then
    needed="$needed gcc-x86-64-linux-gnu g++-x86-64-linux-gnu libc6-dev-amd64-cross qemu-user"
    cc=x86_64-linux-gnu-gcc
    cxx=x86_64-linux-gnu-g++
    run=qemu-x86_64
fi
tools/from_debian 'make compare' $needed

summary=$work/summary
: >"$summary"
step() { # WHAT COMMAND ..: runs it; what it prints goes to the summary, or to the screen where it fails
    echo "$1 .."
    shift
    if ! "$@" >"$work/said" 2>&1; then
        cat "$work/said"
        exit 1
    fi
    cat "$work/said" >>"$summary"
}

# every call once, built as C and as C++: the same is printed
every_call() {
    $run "$work/survey" >"$work/survey.txt" || { cat "$work/survey.txt"; return 1; }
    $run "$work/survey_cpp" | diff "$work/survey.txt" - && echo 'every call once, in C and in C++: as expected'
}

# the vectors of an index: what the reference expects of them
index_vectors() {
    $run "$work/index" <crates/index_vectors/stdin | diff crates/index_vectors/stdout - | head -10 >"$work/differs"
    [ ! -s "$work/differs" ] || { cat "$work/differs"; return 1; }
    echo "an index started, grown and jumped in: $(wc -l <crates/index_vectors/stdout) operations, as the reference says"
}

step 'header and source' tools/check_header
step 'spoilt headers and manuals' python3 $here/test_header.py
step 'lists of calls and source' tools/check_calls
step 'spoilt lists of calls' python3 -B $here/test_calls.py
library=${LIBRARY:-target/staticlib/libvrt49.a}
if [ -z "${LIBRARY:-}" ]; then
    echo 'library, proved ..'
    tools/library "$work/said"
fi
$cc -O2 -Wall -Wextra -static -Iinclude $here/drive.c "$library" -o "$work/drive"
$cc -O2 -Wall -Wextra -static -Iinclude $here/index.c "$library" -o "$work/index"
strict='-O2 -Wall -Wextra -Wshadow -pedantic -Werror'
$cc -std=c99 $strict -static -Iinclude $here/survey.c "$library" -o "$work/survey"
$cxx -x c++ -std=c++11 $strict -Iinclude -c $here/survey.c -o "$work/survey.o"
$cc -static "$work/survey.o" "$library" -o "$work/survey_cpp"
g++ -O1 -Wall -Wextra $here/uhd_pack.cpp -o "$work/uhd_pack" -luhd
"$work/uhd_pack" >"$work/uhd_packets"
step 'every call once' every_call
step 'stack of every call' tools/stack --check "$library"
step 'spoilt words of the stack' python3 -B $here/test_stack.py "$library"
step 'operations on an index' index_vectors
step 'cases of every call, some minutes' python3 $here/cases.py -- $run "$work/drive"
step 'packets of UHD' python3 $here/peers.py uhd "$work/uhd_packets" -- $run "$work/drive"
step 'packets for tshark' python3 $here/peers.py tshark "$work" -- $run "$work/drive"
step 'recordings' $here/recordings.sh
step 'captures' python3 $here/capture.py tools/capture "$work/uhd_packets"
step 'the examples over an installed copy' env LIBRARY="$library" tools/try_install
step 'the examples over the recordings' python3 -B $here/examples.py target/try_install $run
LIBRARY=$library CFLAGS=-Werror show/build "$work/vrtshow"
step 'vrtshow, some minutes' python3 -B $here/show.py -- $run "$work/vrtshow"

# each comparison must fail when drive.c spoils an answer
spoilt() { # BEND COMMAND ..
    bend=$1
    shift
    if BEND=$bend "$@" >"$work/said" 2>&1; then
        echo "BEND=$bend spoils an answer, and no difference is found by: $*"
        exit 1
    fi
}
spoilt 1 python3 $here/cases.py --few -- $run "$work/drive"
spoilt 2 python3 $here/peers.py uhd "$work/uhd_packets" -- $run "$work/drive"
spoilt 2 python3 $here/peers.py tshark "$work" -- $run "$work/drive"
step 'the comparison itself' python3 $here/test_cases.py $run "$work/drive"
step 'vrtshow with faults' env LIBRARY="$library" python3 -B $here/test_show.py $run
step 'what is left behind' $here/test_folders.sh
step 'tools/capture with faults' python3 $here/test_capture.py "$work/uhd_packets"
echo
cat "$summary"
