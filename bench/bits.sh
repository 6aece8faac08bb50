#!/usr/bin/env bash
# Times sets of granules in layers beside a plain loop over words of 64 granules, on the same sets in one run.
#
#   bench/bits.sh
#
# Three measures: the next dirty granule of 2^27 of which the last one alone is dirty; the runs of 65,536 granules of which
# every second one is dirty; marks of 4 KiB all over a disk of 2^27 granules. First the answers of both are compared on the
# same sets. It needs the built program. Its status is 0 only where the answers agree.
set -euo pipefail

top=$(cd "$(dirname "${BASH_SOURCE[0]}")/.." && pwd)
program=$top/crates/bits_bench/out/bits_bench

if [[ ! -x $program ]]; then
    echo "bench/bits.sh: $program is missing: build it with 'rt run' in crates/bits_bench, or with 'rt ci bits_bench'" >&2
    exit 2
fi

if ! diff <("$program") "$top/crates/bits_bench/stdout"; then
    echo "bench/bits.sh: the answers aren't those of crates/bits_bench/stdout" >&2
    exit 1
fi
"$program" time
