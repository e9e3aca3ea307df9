#!/usr/bin/env bash
# Runs each example, with the settings beside it where there are some, and compares what is written with its replies.
# Where the texts of the audit log stand beside it, the last reply is compared with the chain that `chain.sh` computes.
# Then judges the example contest, and compares the verdicts with its table.
#
#     examples/check.sh [PROGRAM]
#
# PROGRAM is the built program, crates/farm/out/farm of this repository if none is given. A line is printed for each
# example, and the status is 1 where one differs.
here=$(cd "$(dirname "$0")" && pwd)
program=${1:-$here/../crates/farm/out/farm}
[ -x "$program" ] || { echo "$program is not there: build it by 'rt run' in crates/farm, or name another one"; exit 1; }

has_its_chain() {
    [ ! -e "$1.texts" ] || "$here/chain.sh" <"$1.texts" | cmp -s - <(tail -n 1 "$1.replies")
}

status=0
for lines in "$here"/*.txt; do
    example=${lines%.txt}
    set -- script
    [ ! -e "$example.json" ] || set -- script --config "$example.json"
    if "$program" "$@" <"$lines" | cmp -s - "$example.replies" && has_its_chain "$example"; then
        echo "ok      $(basename "$example")"
    else
        echo "differs $(basename "$example")"
        status=1
    fi
done
if "$program" judge "$here/contest" --hosts 0 | cmp -s - "$here/contest/table.txt"; then
    echo "ok      contest"
else
    echo "differs contest"
    status=1
fi
exit $status
