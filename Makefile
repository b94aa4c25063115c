# make play, make test; for C: make lib, make example, make show, make install, make uninstall; make compare, make speed, make stack; make wrong,
# make count; make vectors.

.DEFAULT_GOAL := play

# what lib, install, stack, wrong, count and vectors need besides the kit
.PHONY: python
python:
	@command -v python3 >/dev/null || { echo 'python3 is missing; on Debian, as root: apt-get update && apt-get install python3' >&2; exit 1; }

# tries the wrong programs of wrong/, of all crates or of those named behind it: make wrong play page
ifeq (wrong,$(firstword $(MAKECMDGOALS)))
CRATES := $(wordlist 2,$(words $(MAKECMDGOALS)),$(MAKECMDGOALS))
.PHONY: wrong $(CRATES)
wrong: python
	@tools/wrong $(CRATES)
$(CRATES):
	@:
else
.PHONY: play test lib example show install uninstall compare speed stack count vectors

# plays the sample survey and prints a line for each packet
play:
	@tools/run vrtplay <samples/recordings/survey.vrt

# the gate
test:
	@bash .ci/run

# proves the calls for C and builds the library
lib: python
	@tools/check_header
	@echo 'proving the calls for C, some minutes the first time ..'
	@tools/library
	@echo 'proved and built: target/staticlib/libvrt49.a; its header: include/vrt49.h'

# installs Python and the compiler of C from Debian where they are missing
FOR_C = command -v python3 >/dev/null && tools/cc -static >/dev/null 2>&1 || tools/from_debian 'make $@' python3 $$(tools/cc packages)

# builds a C program over the library, and runs it on the sample survey
example:
	@$(FOR_C)
	@$(MAKE) -s lib
	@tools/run_c examples/c/tuning.c <samples/recordings/survey.vrt

# builds vrtshow over the library, and shows the sample survey: its lines, and a picture in target/survey.svg
show:
	@$(FOR_C)
	@$(MAKE) -s lib
	@tools/show --svg target/survey.svg samples/recordings/survey.vrt

# the library, static and shared, its header, its pkg-config file, vrtplay, vrtshow and vrtcapture: make install PREFIX=/usr DESTDIR=/tmp/package
PREFIX ?= /usr/local
LIBDIR ?= $(PREFIX)/lib
install: python
install uninstall:
	@PREFIX='$(PREFIX)' LIBDIR='$(LIBDIR)' DESTDIR='$(DESTDIR)' tools/install $@

# holds the library for C to the reference, to UHD and to tshark, vrtplay to its recordings, vrtshow to the reference, and tools/capture to
# known packets
compare:
	@tools/compare/compare.sh

# counts executed instructions against C by hand, and against UHD
speed:
	@bench/measure.sh

# the bytes of stack that each call of the library takes
stack:
	@command -v x86_64-linux-gnu-objdump >/dev/null || command -v objdump >/dev/null || { echo 'objdump is missing; on Debian, as root: apt-get update && apt-get install binutils-x86-64-linux-gnu' >&2; exit 1; }
	@$(MAKE) -s lib
	@tools/stack

# what the proofs weigh, whether they keep to their rules, and whether the lists of calls have every public function
count: python
	@tools/check_calls
	@tools/count

# makes the vectors and what they should give again, from the reference
vectors: python
	python3 -B tools/reference/read_vectors.py crates/read_vectors/stdin crates/read_vectors/stdout
	python3 -B tools/reference/write_vectors.py crates/write_vectors/stdin crates/write_vectors/stdout
	python3 -B tools/reference/payload_vectors.py crates/payload_vectors/stdin crates/payload_vectors/stdout
	python3 -B tools/reference/play_vectors.py crates/play_vectors/stdin crates/play_vectors/stdout
	python3 -B tools/reference/page_vectors.py crates/page_vectors/stdin crates/page_vectors/stdout
	python3 -B tools/reference/panel_vectors.py crates/panel_vectors/stdin crates/panel_vectors/stdout
	python3 -B tools/reference/streams_vectors.py crates/streams_vectors/stdin crates/streams_vectors/stdout
	python3 -B tools/reference/index_vectors.py crates/index_vectors/stdin crates/index_vectors/stdout
	python3 -B tools/reference/sample_packets.py samples/packets
	python3 -B tools/reference/recordings.py samples/recordings
endif
