#!/usr/bin/env bash
# Makes a disk, tells what it is, and replays the example script on it, with the program built from these sources.
# Plain, it builds without proving anew what the gate proves, and leaves no program. With the word `proved` it first proves all that the
# program stands on, and leaves the program as crates/qback/out/qback.
set -eu
top=$(cd "$(dirname "$0")/.." && pwd)
work=$(mktemp -d)
trap 'rm -rf "$work"' EXIT
cd "$top/crates/qback"
try() { rt try -- "$@" 2>>"$work/told" | grep -v -e '^checked: ' -e '^run='; }
case ${1-} in
    '') first=try then=try ;;
    proved) first='rt run --' then=out/qback ;;
    *) echo "usage: bash examples/replay.sh [proved]" >&2; exit 2 ;;
esac
$first create-source "$work/disk" 16384 12 00112233445566778899aabbccddeeff
$then info "$work/disk"
$then replay "$work/disk" "$PWD/data/script"
