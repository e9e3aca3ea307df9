#!/usr/bin/env bash
# Computes the chain of an audit log from its texts alone, one a line on standard input, and writes what `audit` replies.
#
#     examples/chain.sh < examples/rejudging.texts
#
# The first digest is the SHA-256 of nothing, and each further one that of the 32 bytes of the one before and the text.
digest=$(sha256sum </dev/null)
digest=${digest%% *}
count=0
while IFS= read -r text; do
    digest=$({
        printf "$(sed 's/../\\x&/g' <<<"$digest")"
        printf '%s' "$text"
    } | sha256sum)
    digest=${digest%% *}
    count=$((count + 1))
done
echo "audit $count $digest"
