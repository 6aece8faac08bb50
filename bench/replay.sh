#!/usr/bin/env bash
# Times the program on a long script, checks the disk that it leaves, and times a plain loop in Python beside it.
#
#   bench/replay.sh [SEED] [LINES]
#
# SEED (1) chooses the script, and LINES (200000) is how long it is: writes and reads of 512 bytes in turn, at sectors
# of a disk of 2 MiB. Half of the lines are run too, so that one sees whether the time grows with the lines alone.
# It needs python3 and the built program. Its status is 0 only where each answer and the whole disk are right.
set -euo pipefail

seed=${1:-1}
lines=${2:-200000}
top=$(cd "$(dirname "${BASH_SOURCE[0]}")/.." && pwd)
program=$top/crates/qback/out/qback

fail() {
    echo "bench/replay.sh: $1" >&2
    exit 2
}

[[ $seed =~ ^[0-9]+$ ]] || fail "the seed '$seed' is not a number"
[[ $lines =~ ^[0-9]+$ ]] && ((lines >= 4)) || fail "'$lines' is not a number of lines from 4 on"
command -v python3 >/dev/null || fail "python3 is missing"
[[ -x $program ]] || fail "$program is missing: build it with 'rt run' in crates/qback, or with 'rt ci'"

folder=$(mktemp -d)
trap 'rm -rf "$folder"' EXIT

python3 - "$program" "$folder" "$seed" "$lines" <<'PYTHON'
import os
import random
import struct
import subprocess
import sys
import time

program, folder, seed, lines = sys.argv[1], sys.argv[2], int(sys.argv[3]), int(sys.argv[4])
SIZE = 1 << 21
SECTOR = 512
CLUSTER = 1 << 12
OFFSET = 0x00FFFFFFFFFFFE00


def path(name):
    return os.path.join(folder, name)


def image():
    """An empty image: the header, the table of counts, its block of counts, and a first-level table of one entry."""
    head = bytearray(4 * CLUSTER)
    struct.pack_into(">4sI", head, 0, b"QFI\xfb", 3)
    struct.pack_into(">IQ", head, 20, 12, SIZE)
    struct.pack_into(">IQQI", head, 36, 1, 3 * CLUSTER, CLUSTER, 1)
    struct.pack_into(">II", head, 96, 4, 112)
    struct.pack_into(">4sI16s", head, 112, b"RBK1", 40, bytes(range(0, 256, 17)))
    struct.pack_into(">Q", head, CLUSTER, 2 * CLUSTER)
    struct.pack_into(">4H", head, 2 * CLUSTER, 1, 1, 1, 1)
    return bytes(head)


def make_script(count):
    """Writes and reads in turn, and the end."""
    rng = random.Random(seed)
    with open(path("script"), "w") as script:
        for n in range(count):
            at = SECTOR * rng.randrange(SIZE // SECTOR)
            if n % 2 == 0:
                script.write(f"write {at} {rng.randbytes(SECTOR).hex()}\n")
            else:
                script.write(f"read {at} {SECTOR}\n")
        script.write("quit\n")


def model():
    """What the script's answers are, and the disk that it leaves."""
    disk = bytearray(SIZE)
    with open(path("script")) as script, open(path("wanted"), "w") as wanted:
        for line in script:
            words = line.split()
            if words[0] == "write":
                at, data = int(words[1]), bytes.fromhex(words[2])
                disk[at : at + len(data)] = data
                wanted.write("ok\n")
            elif words[0] == "read":
                at, count = int(words[1]), int(words[2])
                wanted.write(f"data {disk[at:at + count].hex()}\n")
            else:
                wanted.write("ok\n")
    return bytes(disk)


def disk_of(name):
    """The disk of an image, by its tables."""
    with open(path(name), "rb") as file:
        held = file.read()
    (size,) = struct.unpack_from(">Q", held, 24)
    (entries, first) = struct.unpack_from(">IQ", held, 36)
    disk = bytearray(size)
    for i in range(entries):
        (entry,) = struct.unpack_from(">Q", held, first + 8 * i)
        if entry & OFFSET == 0:
            continue
        for k in range(CLUSTER // 8):
            (stored,) = struct.unpack_from(">Q", held, (entry & OFFSET) + 8 * k)
            at = CLUSTER * (CLUSTER // 8 * i + k)
            if stored & OFFSET and at < size:
                piece = held[stored & OFFSET :][: min(CLUSTER, size - at)]
                disk[at : at + len(piece)] = piece
    return bytes(disk)


def time_program():
    """How many seconds the program takes."""
    with open(path("image"), "wb") as file:
        file.write(image())
    with open(path("answers"), "wb") as answers:
        start = time.perf_counter()
        done = subprocess.run([program, "replay", path("image"), path("script")], stdout=answers)
        taken = time.perf_counter() - start
    if done.returncode != 0:
        sys.exit(f"bench/replay.sh: the program ended with status {done.returncode}")
    return taken


def time_plain():
    """How many seconds a plain loop takes: the same script, reads and writes on a raw file, and the same answers."""
    with open(path("raw"), "wb") as file:
        file.truncate(SIZE)
    start = time.perf_counter()
    raw = os.open(path("raw"), os.O_RDWR)
    with open(path("script")) as script, open(path("plain"), "w") as answers:
        for line in script:
            words = line.split()
            if words[0] == "write":
                os.pwrite(raw, bytes.fromhex(words[2]), int(words[1]))
                answers.write("ok\n")
            elif words[0] == "read":
                answers.write(f"data {os.pread(raw, int(words[2]), int(words[1])).hex()}\n")
            else:
                os.fdatasync(raw)
                answers.write("ok\n")
    os.close(raw)
    return time.perf_counter() - start


def same(one, other):
    with open(path(one), "rb") as left, open(path(other), "rb") as right:
        return left.read() == right.read()


def run(count):
    make_script(count)
    disk = model()
    mine, plain = time_program(), time_plain()
    if not same("answers", "wanted"):
        sys.exit("bench/replay.sh: the program's answers differ from the model's")
    if disk_of("image") != disk:
        sys.exit("bench/replay.sh: the disk differs from the model's")
    if not same("plain", "wanted"):
        sys.exit("bench/replay.sh: the plain loop's answers differ from the model's")
    print(f"{count:>9} {mine:>10.3f} {count / mine:>14.0f} {plain:>10.3f} {count / plain:>14.0f}", flush=True)
    return mine


print(f"seed {seed}; writes and reads of {SECTOR} bytes in turn, on a disk of {SIZE} bytes")
print(f"{'':>9} {'program':>25} {'plain python3 loop':>25}")
print(f"{'lines':>9} {'seconds':>10} {'lines/second':>14} {'seconds':>10} {'lines/second':>14}")
half, whole = run(lines // 2), run(lines)
print(f"twice the lines take the program {whole / half:.2f} times as long")
print("each answer and the whole disk are as in the model")
PYTHON
