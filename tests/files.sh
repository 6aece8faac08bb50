#!/usr/bin/env bash
# The built program on real files: what each command prints and answers, and what it leaves. It runs the program that
# `rt ci` or `rt run` left in crates/qback/out. Where strace, flock or a small file system aren't there, it says which
# cases were left out.
set -u
top=$(cd "$(dirname "$0")/.." && pwd)
program=$top/crates/qback/out/qback
if [ ! -x "$program" ]; then
    echo "files: $program isn't there; rt ci builds it"
    exit 1
fi
work=$(mktemp -d)
trap 'umount "$work"/{disk,left,right} 2>/dev/null; rm -rf "$work"' EXIT
cd "$work" || exit 1
id=00112233445566778899AABBCCDDEEFF
seconds=10 # after which a run counts as waiting
before=    # what stands before the program in a case
count=0

fail() {
    echo "files: $1"
    exit 1
}

# Whether a tool is there; if not, says what is left out.
has() {
    "${@:2}" >/dev/null 2>&1 && return
    echo "files: left out: $1"
    return 1
}

# Runs the program on the words behind the first two, and compares its status and its lines with these.
says() {
    local status=$1 lines=$2
    shift 2
    $before timeout $seconds "$program" "$@" >out
    local got=$?
    printf '%b' "$lines" >due
    if [ "$got" != "$status" ] || ! cmp -s out due; then
        cat out
        fail "${before:+$before }qback $* ended with $got and said the above"
    fi
    count=$((count + 1))
}

# The status of the command before this.
ends() {
    [ $? = "$1" ] || fail "$2"
    count=$((count + 1))
}

# A file is as another, and there is none of this name.
same() { cmp -s "$1" "$2" || fail "$1 changed: $3"; }
gone() { [ ! -e "$1" ] || fail "$1 is there: $2"; }

# Runs a command whose files grow to so many KiB at most.
limited() { (trap '' XFSZ && ulimit -f "$1" && "${@:2}"); }

# Runs a command with a fault in a call on the host.
broken() { strace -f -o faults -e "inject=$1" "${@:2}" 2>/dev/null; }

# Runs the program, and finds its calls on the host, with the paths of files, in this order.
asks() {
    strace -y -o calls "$program" "${@:2}" >/dev/null
    tr '\n' ' ' <calls | grep -qE "$1" || fail "qback ${*:2} doesn't ask the host for $1"
    count=$((count + 1))
}

# Runs the program on words whose answers fill a pipe, and meanwhile a command.
during() {
    "$program" "${@:2}" | { $1 && cat >/dev/null; }
    ends 0 "while qback ${*:2} runs, $1 fails"
}

# Waits until nobody can lock the image so, while it can be locked so.
holds() {
    for _ in $(seq 100); do
        flock -n "$1" s true || break
        sleep 0.05
    done
    ! flock -n "$1" s true && { [ "$2" = none ] || flock -n "$2" s true; }
}
shared() { holds -x -s; }
alone() { holds -s none; }

commands() {
    says 1 'words\n'
    says 1 'words\n' create-source s 16384 12
    says 0 'made s\n' create-source s 16384 12 $id
    cp s kept
    says 8 'exists s\n' create-source s 16384 12 $id
    says 8 'exists s\n' create-target s 512 9
    same s kept 'by a creation'
    says 0 'kind source\nsize 16384\ncluster 4096\nid 00112233445566778899aabbccddeeff\nepoch 0\n' info s
    says 0 'made t\n' create-target t 16384 12 base.qcow2
    says 0 'kind target\nsize 16384\ncluster 4096\nstate blank\n' info t
    says 2 'file nofile Missing\n' info nofile
    printf 'not an image' >small
    says 2 'file small Short\n' info small
    head -c 200 /dev/zero >zeros
    says 2 'file zeros Magic\n' info zeros
    says 2 'file s/below Missing\n' info s/below
    same s kept 'by info'
    says 3 'device\n' create-source missing/s 512 9 $id
    says 3 'device\n' create-source s/below 512 9 $id
    says 0 'made big\n' create-source big 1099511627776 16 $id
    [ "$(stat -c %s big)" = 262144 ] || fail "the largest disk's file has another length"
}

replays() {
    printf 'write 4095 aabb\nread 4094 4\nquit\n' >script
    printf 'read 4094 4\nquit\n' >reads
    printf 'read 4094 4\nstop\n' >looks
    printf 'zero 4095 1\nflush\nqmp {}\nstop\nread 4094 4\n' >stops
    printf 'write 4095 aa\n' >again
    printf 'write 0 11\nwrite 0 abc\n' >bad
    says 0 'ok\ndata 00aabb00\nok\n' replay s script
    says 0 'data 00aabb00\nok\n' replay s reads
    says 0 'ok\nok\n{"error":{"class":"CommandNotFound","desc":"Unbuilt"}}\nstopped\n' replay s stops
    says 0 'data 0000bb00\nok\n' replay s reads
    says 0 'ok\nok\n' replay s again
    says 5 'line 2\n' replay s bad
    says 0 'data 00aabb00\nok\n' replay s reads
    says 2 'file t Unbuilt\n' replay t script
}

# What isn't a regular file is neither waited for nor opened, and a name that leads nowhere has no file.
other_files() {
    mkfifo fifo && mkdir folder && ln -s nowhere link
    for name in fifo folder /dev/null; do
        says 3 'device\n' info $name
        says 3 'device\n' replay s $name
        says 3 'device\n' replay $name script
    done
    says 3 'device\n' replay s /dev/stdin < <(cat script)
    says 3 'device\n' replay s <(cat script)
    says 0 'data 00aabb00\nok\n' replay s /dev/stdin <reads
    says 8 'exists link\n' create-source link 512 9 $id
    says 2 'file link Missing\n' info link
    says 2 'file link Missing\n' replay s link
    gone nowhere 'through a link'
}

# Runs at once: writers exclude each other and readers, and what another run writes is only read.
runs_at_once() {
    cp s kept
    before='flock -s s' says 3 'device\n' replay s script
    same s kept 'while another run read it'
    before='flock -x s' says 0 'data 00aabb00\nstopped\n' replay s looks
    before='flock -x s' says 3 'data 00aabb00\ndevice\n' replay s reads
    before='flock -x s' says 3 'device\n' replay s script
    before='flock -x t' says 0 'kind target\nsize 16384\ncluster 4096\nstate blank\n' info t
    same s kept 'while another run wrote it'
    before='flock -x reads' says 0 'data 00aabb00\nok\n' replay s reads
    before='flock -s reads' says 0 'data 00aabb00\nok\n' replay s reads
    yes 'read 0 16384' | head -n 8 >long
    during shared replay s long
    { echo 'write 4095 aa' && cat long; } >longer
    during alone replay s longer
}

# Two names of one file in one run.
two_names() {
    cp s kept && ln s same
    says 3 'device\n' replay s ./s
    says 3 'device\n' replay s same
    says 5 'line 1\n' replay s s
    same s kept 'by a second name'
}

# A stream that was closed is not taken for a file, and what can't be printed is told.
streams() {
    "$program" info s >/dev/full
    ends 3 "a print that failed isn't told"
    "$program" replay s script >&-
    ends 3 "a print without standard output isn't told"
    "$program" replay s reads >&- 2>&- <&-
    ends 3 "a print without any stream isn't told"
    "$program" create-source quiet 16384 12 $id >&-
    ends 3 "a creation without standard output isn't told"
    says 0 'kind source\nsize 16384\ncluster 4096\nid 00112233445566778899aabbccddeeff\nepoch 0\n' info quiet
    says 0 'data 00aabb00\nok\n' replay s reads
    head -c 1000 /dev/zero >cut
    limited 1 "$program" info s >>cut
    ends 3 "a print that was cut short isn't told"
    { head -c 1000 /dev/zero && "$program" info s | head -c 24; } >due
    same cut due "a print that was cut short isn't the text's start"
}

# A file that can't be whole isn't left, and a write that was cut short isn't told as done.
full_files() {
    before='limited 4' says 3 'device\n' create-source n 16384 12 $id
    gone n 'a creation that was cut short'
    says 0 'made n\n' create-source n 16384 12 $id
    printf 'write 0 11\nstop\n' >first
    printf 'write 0 11\nwrite 4096 %s\nquit\n' "$(head -c 128 /dev/zero | tr '\0' 3)" >second
    cp n whole
    says 0 'ok\nstopped\n' replay whole first
    before='limited 26' says 3 'ok\ndevice\n' replay n second
    [ "$(stat -c %s n)" = 26624 ] || fail 'no write was cut short'
    head -c 24576 n >start
    same start whole 'before the end of a write that was cut short'
}

full_disk() {
    mkdir disk
    has 'a full file system, which may not be mounted' mount -t tmpfs -o size=64k tmpfs disk || return
    says 3 'device\n' create-source disk/big 1099511627776 16 $id
    gone disk/big 'a creation on a full disk'
    mount -o remount,size=512k disk
    says 0 'made disk/big\n' create-source disk/big 1099511627776 16 $id
}

# Two files of one number on two file systems are two.
two_disks() {
    mkdir left right
    has 'two file systems, which may not be mounted' eval 'mount -t tmpfs left left && mount -t tmpfs right right' || return
    cp s left/s && cp reads right/reads
    has 'two files of one number' [ "$(stat -c %i left/s)" = "$(stat -c %i right/reads)" ] || return
    says 0 'data 00aabb00\nok\n' replay left/s right/reads
}

# What reaches the host: a file's locks, syncs of the very file and folder, and none but the due order.
calls() {
    local file='[0-9]+<[^>]*/folder/n>' folder='[0-9]+<[^>]*/folder>'
    asks "fsync\($file\) += 0.* fsync\($folder\) += 0.* pwrite64\($file.* fdatasync\($file\) += 0 write\(1<[^>]*>, \"made " \
        create-source folder/n 16384 12 $id
    asks "flock\($file, LOCK_SH\|LOCK_NB\) += 0.* flock\($file, LOCK_EX\|LOCK_NB\) += 0 pwrite64\($file" replay folder/n script
    printf 'write 0 11\nflush\nstop\n' >flushes
    asks "pwrite64\($file.* write\(1<[^>]*>, \"ok.* fdatasync\($file\) += 0 write\(1<[^>]*>, \"ok.* write\(1<[^>]*>, \"stopped" \
        replay folder/n flushes
    asks "pwrite64\($file.* fdatasync\($file\) += 0 write\(1<[^>]*>, \"ok" replay folder/n again
    asks 'statx\(.*"fifo"' info fifo
    ! grep -q 'openat(.*"fifo"' calls || fail 'what is no regular file was opened'
}

# Faults of the host.
faults() {
    for fault in fsync:error=EIO:when=1 fsync:error=EIO:when=2 fdatasync:error=EIO pwrite64:error=ENOSPC pwrite64:retval=0 \
        flock:error=EIO flock:error=EAGAIN; do
        before="broken $fault" says 3 'device\n' create-source o 16384 12 $id
        gone o "$fault"
    done
    before='broken fdatasync:error=EIO' says 3 'ok\ndevice\n' replay s again
    before='broken pwrite64:error=EIO' says 3 'device\n' replay s again
    before="broken pread64:error=EIO:when=2+ -P s" says 3 'device\n' replay s reads
    for fault in flock:error=ENOLCK flock:error=EOPNOTSUPP pwrite64:error=EINTR:when=1 fdatasync:error=EINTR:when=1; do
        before="broken $fault" says 0 'ok\nok\n' replay s again
    done
    before='broken flock:error=ENOLCK' says 0 'made o\n' create-source o 16384 12 $id
    for fault in EACCES EROFS; do
        before="broken openat:error=$fault:when=1 -P reads" says 0 'data 00aabb00\nok\n' replay s reads
    done
}

# The host takes fewer bytes than it was given: of a file its first 100 stay zeros, of a text its first 5 are missing.
short_counts() {
    before='broken pwrite64:retval=100:when=1' says 0 'made short\n' create-source short 16384 12 $id
    { head -c 100 /dev/zero && tail -c +101 quiet; } >due
    same short due 'by a write that was cut short'
    before='broken write:retval=5:when=1' says 0 'source\nsize 16384\ncluster 4096\nid 00112233445566778899aabbccddeeff\nepoch 0\n' info quiet
    before='broken write:retval=0' says 3 '' info quiet
}

# Once a command succeeds, puts a file in place of another.
once() {
    for _ in $(seq 100); do
        "${@:3}" && break
        sleep 0.02
    done 2>/dev/null
    mv -f "$1" "$2"
}

# A name that is exchanged while the program runs: after its look at a file, and while a new file is synced.
exchanges() {
    cp s other
    rm -f faults
    once fifo s grep -q statx faults &
    before='broken openat:delay_enter=1000000 -P s' says 3 'device\n' info s
    wait
    rm s && cp other s
    once other p [ -e p ] &
    before='broken fdatasync:error=EIO:delay_enter=1000000' says 3 'device\n' create-source p 512 9 $id
    wait
    same p s 'a file that another program put in place of a half-made one'
}

commands
replays
other_files
has 'runs at once: flock' command -v flock && runs_at_once
two_names
streams
full_files
full_disk
two_disks
has 'calls on the host: strace' strace -o /dev/null true && calls && faults && short_counts && exchanges
echo "files: $count runs of the program on real files are as due"
