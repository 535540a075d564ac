#!/usr/bin/env bash
# compare.sh [LETTER IMAGE]: the proved fuller listing (the program samples) beside a lister in plain Rust, by instructions executed.
#
#   bench/compare.sh                  # the full card: bench/full.mfd, which takes letter D
#   bench/compare.sh A some-card.mfd
#
# bench/full.mfd has all ten items and all eleven services, and no block is free; bench/full.txt is its listing.
# Needs rustc and valgrind, and crates/samples/out/samples, which `rt run` in crates/samples builds.
# Each program runs twice: on the image, and on an empty file, which it refuses at once. The second run is the cost of
# starting up, so the difference is the cost of the listing. Instructions are counted and not timed: the figures hardly
# change from run to run. samples prints the path first, which is left out of the comparison. The status is 0 if both
# programs ran and print the same.
set -euo pipefail

here=$(cd "$(dirname "$0")" && pwd)
top=$(dirname "$here")
proved=$top/crates/samples/out/samples

case $# in
  0) letter=D image=$here/full.mfd ;;
  2) letter=$1 image=$2 ;;
  *) echo "usage: compare.sh [LETTER IMAGE]" >&2; exit 2 ;;
esac
[ -r "$image" ] || { echo "compare.sh: cannot read $image" >&2; exit 2; }
for tool in rustc valgrind; do
  command -v "$tool" >/dev/null || { echo "compare.sh: $tool is not installed" >&2; exit 2; }
done

work=$(mktemp -d)
trap 'rm -rf "$work"' EXIT
: >"$work/empty.mfd"
plain=$work/lister
rustc -O --edition 2021 -o "$plain" "$here/lister.rs"

# The instructions that a program executes on an image; the plain lister ends a refused listing with status 1.
instructions() {
  local log=$work/callgrind.log
  valgrind --tool=callgrind --callgrind-out-file=/dev/null "$1" "$letter" "$2" >/dev/null 2>"$log" || [ $? -eq 1 ]
  awk '/Collected :/ { print $4; found = 1 } END { exit !found }' "$log"
}

# One row of the table: a name, and the figures of a program.
row() {
  local listing start
  listing=$(instructions "$2" "$image")
  start=$(instructions "$2" "$work/empty.mfd")
  printf '%-14s %12d %12d %12d\n' "$1" "$listing" "$start" $((listing - start))
}

# What a program prints of the image.
record() {
  "$1" "$letter" "$image" || [ $? -eq 1 ]
}

result=0
record "$plain" >"$work/plain.txt"
if [ $# -eq 0 ] && ! diff "$here/full.txt" "$work/plain.txt"; then
  echo "compare.sh: the Rust lister does not print bench/full.txt" >&2
  result=1
fi
if [ ! -x "$proved" ]; then
  echo "compare.sh: $proved is missing, build it with: (cd crates/samples && rt run)" >&2
  result=1
else
  if [ -n "$(find "$top/crates" -path '*/src/*' -not -path '*/out/*' -newer "$proved" -print -quit)" ]; then
    echo "compare.sh: $proved is older than the sources, and may be out of date" >&2
  fi
  record "$proved" | tail -n +2 >"$work/proved.txt"
  if ! diff "$work/plain.txt" "$work/proved.txt" >"$work/diff.txt"; then
    echo "compare.sh: the listings differ (< Rust, > proved):" >&2
    cat "$work/diff.txt" >&2
    result=1
  fi
fi

echo "instructions, profile $letter, $image"
printf '%-14s %12s %12s %12s\n' program whole start-up listing
row plain-rust "$plain"
if [ -x "$proved" ]; then row proved "$proved"; fi
exit $result
