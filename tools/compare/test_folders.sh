#!/bin/sh
# Whether what counts instructions, and what installs packages, leaves nothing behind in TMPDIR, however it ends: here the compilers, rt, apt-get and sudo fail,
# and no package is there. WORK keeps a folder.
set -eu
cd "$(dirname "$0")/../.."
work=$(mktemp -d)
trap 'rm -rf "$work"' EXIT
mkdir "$work/bin" "$work/left" "$work/kept"
for command in rt apt-get sudo dpkg-query; do
    printf '#!/bin/sh\nexit 1\n' >"$work/bin/$command"
    chmod +x "$work/bin/$command"
done
tried() { # COMMAND ..: it must fail
    if env PATH="$work/bin:$PATH" TMPDIR="$work/left" CC=false CXX=false "$@" >"$work/said" 2>&1; then
        echo "tools/compare/test_folders.sh: this does not fail: $*"
        exit 1
    fi
    [ -z "$(ls -A "$work/left")" ] || { echo "$* leaves behind: $(ls -A "$work/left")"; exit 1; }
}
for part in calls small play index payload uhd; do
    tried "bench/$part/measure.sh"
    tried env WORK="$work/kept" "bench/$part/measure.sh"
    [ -d "$work/kept" ] || { echo "bench/$part/measure.sh removes WORK"; exit 1; }
done
tried env LIBRARY=none bench/play/measure.sh
tried tools/from_debian 'a test' none
echo 'what counts instructions and what installs packages: nothing is left behind'
