#!/usr/bin/env bash
# size.sh: how many bytes the code of a station over an image card takes, and how many a station itself. A crate with one exported function for each call is added to a copy of the libraries, proved, and built as a static library.
set -euo pipefail
here=$(cd "$(dirname "$0")/.." && pwd)
work=$(mktemp -d); trap 'rm -rf "$work"' EXIT
mkdir -p "$work/crates/probe/src"
for crate in layout card directory service station; do
  cp -r "$here/crates/$crate" "$work/crates/"; rm -rf "$work/crates/$crate/must-fail" "$work/crates/$crate/out"
done
grep -E '^(layout|card|directory|service|station):' "$here/crates.txt" >"$work/crates.txt"
echo 'probe staticlib: layout card station' >>"$work/crates.txt"
cat >"$work/crates/probe/src/lib.rt" <<'RT'
// The calls of a station over an image card, exported.
#![tactic(auto)]

use card::ImageCard;
use layout::Image;
use layout::Profile;
use station::Station;

#[unsafe(no_mangle)]
pub extern "C" fn station_bytes() -> usize {
    size_of::<Station<ImageCard>>()
}

#[unsafe(no_mangle)]
pub extern "C" fn station_find(image: &mut Image, number: u16) -> u8 {
    let mut station = Station::new(Profile::A, ImageCard::new(image), 1, 0);
    match station.find(number) {
        Ok(found) => found.slot,
        Err(refusal) => refusal.number(),
    }
}

#[unsafe(no_mangle)]
pub extern "C" fn station_read(image: &mut Image, number: u16, buffer: &mut [u8]) -> u8 {
    let mut station = Station::new(Profile::A, ImageCard::new(image), 1, 0);
    match station.read(number, buffer) {
        Ok(reading) => reading.tag,
        Err(refusal) => refusal.number(),
    }
}
RT
cd "$work/crates/probe"
rt lib >"$work/log" 2>&1 || { tail -n 20 "$work/log" >&2; exit 1; }
size -t out/libprobe.a
printf '#include <stdio.h>\n#include <stddef.h>\nsize_t station_bytes(void);\nint main(void) { printf("a station: %%zu bytes\\n", station_bytes()); return 0; }\n' >main.c
cc main.c out/libprobe.a -o main && ./main
