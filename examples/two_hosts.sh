#!/usr/bin/env bash
# Builds the program, runs the workload of two hosts on a fresh volume file, and checks the volume that it leaves.
set -euo pipefail
cd "$(dirname "$0")/../crates/dede"
mkdir -p out
rm -f out/two_hosts.volume

# Names each crate when it is proved.
proved() {
    awk '/^crate /{ name = $2 } /^logic=proved/{ sub(":", "", name); print "proved " name; fflush() }'
}

# A program is built of proved crates alone: what is not proved on this machine yet is proved first.
echo "proving, which takes minutes on a fresh machine (out/two_hosts.log)" >&2
rt run -- out/two_hosts.volume sim < ../../examples/two_hosts.workload \
    2> >(tee out/two_hosts.log | proved >&2) \
    || { tail -n 40 out/two_hosts.log >&2; exit 1; }
out/dede out/two_hosts.volume check
