#!/usr/bin/env bash
# The large job on one volume file. It writes the generated workload of 40 rounds, in which four hosts write 1,600 blocks of 101 contents, log,
# merge and serve; runs it with a thread for each host; settles the volume, which first finishes the work of the hosts that are joined still; and
# collects the slots of the arena whose block no file uses any more. How many blocks the hosts share by hints is the threads' matter. What stands
# behind the settling is not: 1,600 places of 101 contents, and behind the collecting one data block for each content.
set -euo pipefail
cd "$(dirname "$0")/../crates/dede"
mkdir -p out
rm -f out/large.volume

# Names each crate when it is proved.
proved() {
    awk '/^crate /{ name = $2 } /^logic=proved/{ sub(":", "", name); print "proved " name; fflush() }'
}

# Runs a job on the volume, and writes the last line of what it wrote.
job() {
    out/dede out/large.volume "$@" > out/large.report || { cat out/large.report >&2; exit 1; }
    tail -n 1 out/large.report
}

# Ends where a text does not begin with the words that are expected.
expect() {
    [[ "$2 " == "$1 "* ]] || { echo "expected '$1', and found '$2'" >&2; exit 1; }
}

# A program is built of proved crates alone: what is not proved on this machine yet is proved first.
echo "proving, which takes minutes on a fresh machine (out/large.log)" >&2
rt run -- out/large.volume gen 40 > out/large.workload \
    2> >(tee out/large.log | proved >&2) \
    || { tail -n 40 out/large.log >&2; exit 1; }

echo "run: $(job run < out/large.workload)"

settled=$(job settle)
counts=$(head -n 1 out/large.report)
echo "settle: $counts, $settled"
expect "settled 1600 101" "$counts"

collected=$(printf '%s\n' "volume 4 16 4 4 8 4" "0 join" "0 collect 0" "0 collect 1" "0 collect 2" "0 collect 3" "0 leave" | job sim)
echo "collect: $collected"
expect "used 101" "$collected"

checked=$(job check)
echo "check: $(head -n 1 out/large.report), $checked"
expect "valid" "$(head -n 1 out/large.report)"
expect "$collected" "$checked"
