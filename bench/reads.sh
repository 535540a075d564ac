#!/usr/bin/env bash
# reads.sh: how many card reads a find and a read make on each profile. For each stored card the desk is run on a card that goes after 0, 1, 2, .. answered reads, until the call is no longer refused by 2.
# Needs crates/desk/out/desk and crates/samples/out/samples, which `rt run` builds in those folders.
set -euo pipefail
cd "$(dirname "$0")/.."
desk=crates/desk/out/desk samples=crates/samples/out/samples
for program in "$desk" "$samples"; do
  [ -x "$program" ] || { echo "reads.sh: $program is missing: rt run in its crate builds it" >&2; exit 1; }
done
least() { # LETTER IMAGE CALL..
  local letter=$1 image=$2 count=0; shift 2
  while printf '%s\n' "$*" | "$desk" "$letter" "$image" --tear "$count" old 0 | grep -q 'refused 2 at'; do count=$((count + 1)); done
  echo "$count"
}
printf '%-8s %-8s %-6s %6s %6s\n' profile service blocks find read
for letter in A B C D E; do
  image=$(ls crates/samples/data/accepted-"$letter"-*.mfd | head -n 1)
  line=$("$samples" "$letter" "$image" | tail -n +2 | grep -vE 'profile|free|refused' | head -n 1)
  read -r number start length _ <<<"$line"
  printf '%-8s %-8s %-6s %6s %6s\n' "$letter" "$number" "$((16#$length))" "$(least "$letter" "$image" find "$number")" "$(least "$letter" "$image" read "$number" 4096)"
done
