#!/usr/bin/env bash
# QEMU's own tools read the files that the program makes: qemu-img check finds no error and no leaked cluster, and
# qemu-img info and a comparison with zeros tell the right disk. It runs the program that `rt ci` or `rt run` left in
# crates/qback/out, and is skipped where qemu-img isn't installed.
set -eu
top=$(cd "$(dirname "$0")/.." && pwd)
program=$top/crates/qback/out/qback
if ! command -v qemu-img >/dev/null; then
    echo "interop: skipped, qemu-img isn't installed"
    exit 0
fi
if [ ! -x "$program" ]; then
    echo "interop: $program isn't there; rt ci builds it"
    exit 1
fi
work=$(mktemp -d)
trap 'rm -rf "$work"' EXIT
cd "$work"
id=00112233445566778899aabbccddeeff

fail() {
    echo "interop: $*"
    exit 1
}

# Runs the program, and keeps what it prints.
run() {
    "$program" "$@" >line || fail "qback $* ended with $?: $(cat line)"
}

# The value of a member in what qemu-img info tells.
told() {
    qemu-img info --output=json "$1" | python3 -c 'import json, sys; print(json.load(sys.stdin).get(sys.argv[1]))' "$2"
}

# What QEMU's tools say of a file of this size and these cluster bits.
agree() {
    local file=$1 size=$2 bits=$3
    qemu-img check -q "$file" || fail "qemu-img check of $file finds errors or leaks"
    [ "$(told "$file" format)" = qcow2 ] || fail "$file isn't taken for qcow2"
    [ "$(told "$file" virtual-size)" = "$size" ] || fail "$file has another size"
    [ "$(told "$file" cluster-size)" = $((1 << bits)) ] || fail "$file has clusters of another size"
    qemu-img create -q -f raw zeros "$size"
    qemu-img compare -q -f qcow2 -F raw "$file" zeros || fail "$file isn't a disk of zeros"
}

count=0
for bits in 9 12 16 21; do
    # the largest disk: of 2^20 first-level entries, of 2^27 clusters, or of 2^40 bytes
    case $bits in
        9) largest=$((1 << 35)) ;;
        12) largest=$((1 << 39)) ;;
        *) largest=$((1 << 40)) ;;
    esac
    for size in 512 100352 16777216 "$largest"; do
        run create-source "s$bits-$size" "$size" "$bits" "$id"
        [ "$(cat line)" = "made s$bits-$size" ] || fail "create-source said $(cat line)"
        agree "s$bits-$size" "$size" "$bits"
        run create-target "t$bits-$size" "$size" "$bits"
        agree "t$bits-$size" "$size" "$bits"
        count=$((count + 2))
    done
    run create-target "over$bits" 100352 "$bits" "s$bits-100352"
    [ "$(told "over$bits" backing-filename)" = "s$bits-100352" ] || fail "over$bits names another backing file"
    [ "$(told "over$bits" backing-filename-format)" = qcow2 ] || fail "over$bits names another backing format"
    agree "over$bits" 100352 "$bits"
    count=$((count + 1))
done
# An image of QEMU's is told as an image, with its sizes.
for bits in 9 12 16 21; do
    qemu-img create -q -f qcow2 -o "cluster_size=$((1 << bits))" "q$bits" 16777216
    run info "q$bits"
    printf 'kind image\nsize 16777216\ncluster %s\n' $((1 << bits)) | cmp -s - line || fail "info of QEMU's own image said $(cat line)"
    count=$((count + 1))
done
echo "interop: $count files agree with $(qemu-img --version | head -1)"
