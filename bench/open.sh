#!/usr/bin/env bash
# Opens the clusters of an empty image of 1 TiB in clusters of 64 KiB, and prints how long that took and the most memory
# that the whole program held: 32 MiB of it are one bit for each cluster that can be counted.
#
#   bench/open.sh
#
# It needs the built program.
set -euo pipefail

top=$(cd "$(dirname "${BASH_SOURCE[0]}")/.." && pwd)
program=$top/crates/open_bench/out/open_bench

if [[ ! -x $program ]]; then
    echo "bench/open.sh: $program is missing: build it with 'rt run' in crates/open_bench, or with 'rt ci open_bench'" >&2
    exit 2
fi

python3 - "$program" <<'PYTHON'
import resource, subprocess, sys
print(subprocess.run([sys.argv[1], "time"], check=True, stdout=subprocess.PIPE, text=True).stdout, end="")
print(f"{resource.getrusage(resource.RUSAGE_CHILDREN).ru_maxrss / 1024:.1f} MiB at most")
PYTHON
