#!/usr/bin/env bash
# Plays the example `two-hosts.txt` over a store: some lines, then the program is killed, then the rest; and compares the replies
# with those beside it.
#
#     examples/store.sh [PROGRAM]
#
# PROGRAM is the built program, crates/farm/out/farm of this repository if none is given.
here=$(cd "$(dirname "$0")" && pwd)
program=${1:-$here/../crates/farm/out/farm}
folder=$(mktemp -d)
trap 'rm -rf "$folder"' EXIT
store=$folder/day.store

lines=$(wc -l <"$here/two-hosts.txt")
half=$((lines / 2))
mkfifo "$folder/lines"
"$program" script --store "$store" <"$folder/lines" >"$folder/first" &
script=$!
exec 3>"$folder/lines"
head -n "$half" "$here/two-hosts.txt" >&3
# the replies to these lines, as many as a run without a store gives
wanted=$(head -n "$half" "$here/two-hosts.txt" | "$program" script | wc -l)
while [ "$(wc -l <"$folder/first")" -lt "$wanted" ]; do sleep 0.01; done
kill -KILL "$script"
wait "$script" 2>/dev/null
exec 3>&-
tail -n +"$((half + 1))" "$here/two-hosts.txt" | "$program" script --store "$store" >"$folder/second"
cat "$folder/first" "$folder/second" | cmp - "$here/two-hosts.replies" || exit 1
echo "the store behind it:"
"$program" store "$store"
