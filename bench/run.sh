#!/bin/sh
# Measures the program on this machine, beside the physical limit and other stores, in one run and on one filesystem, and
# prints a table of ratios (Markdown). docs/PERFORMANCE.md has the newest one.
#
#     bench/run.sh [-s] [PROGRAM] [FOLDER]
#
# PROGRAM is crates/vvols/out/vvols where none is named, as `rt ci` or `rt run` builds it, with LLVM. FOLDER is where the
# files are made, and removed again; it needs 3 GB. With -s all is small, to try this script; then the figures say nothing.
# The machine should have nothing else to do.
#
# Debian packages: gcc and libc6-dev (needed); libsqlite3-dev, liblmdb-dev, qemu-utils (what isn't there is skipped and said).

small=0
if [ "$1" = -s ]; then
    small=1
    shift
fi
here=$(cd "$(dirname "$0")" && pwd) || exit 2
program=${1:-$here/../crates/vvols/out/vvols}
case $program in /*) ;; *) program=$PWD/$program ;; esac
if [ ! -x "$program" ]; then
    echo "bench: there is no program at $program: run rt ci at the top, or rt run in crates/vvols" >&2
    exit 2
fi
room=$(mktemp -d "${2:-${TMPDIR:-/tmp}}/bench-XXXXXX") || exit 2
trap 'rm -rf "$room"' EXIT
trap 'exit 2' HUP INT TERM
cd "$room" || exit 2

say() { echo "bench: $*" >&2; }

if [ $small -eq 1 ]; then
    writes=20 whole_writes=5 volume_mb=8 times=2 pool=2048 map=8192 line_blocks=16 filled_mb=2
else
    writes=2000 whole_writes=500 volume_mb=1024 times=7 pool=262144 map=1048576 line_blocks=2048 filled_mb=64
fi

${CC:-cc} -O2 -o limit "$here/limit.c" && ${CC:-cc} -O2 -o drive "$here/drive.c" || exit 2

# ---- the lines of scripts

id() { printf 'rfc4122.00000000-0001-8000-8000-%012x' "$1"; }
make() { echo "{\"call\":\"createVirtualVolume\",\"sizeInMB\":$1,\"vvolType\":\"Data\"}"; }
on() { echo "{\"call\":\"$1\",\"vvol\":\"$(id "$2")\"}"; }
bind() { echo "{\"call\":\"bindVirtualVolume\",\"host\":1,\"vvol\":\"$(id "$1")\"}"; }
unbind() { echo '{"call":"unbindVirtualVolume","endpoint":1,"host":1,"secondary":1}'; }
note() { echo "{\"call\":\"setMetadata\",\"key\":\"note\",\"value\":\"$1\",\"vvol\":\"$(id 1)\"}"; }
command() { echo "{\"call\":\"scsi\",\"cdb\":\"$1\"${2:+,\"data\":$2},\"endpoint\":1,\"host\":${3:-1},\"secondary\":1}"; }

# Writes of one block at drawn addresses of a volume with so many blocks.
drawn_writes() { # BLOCKS COUNT
    awk -v blocks="$1" -v count="$2" 'BEGIN {
        srand(7)
        for (i = 0; i < count; i++)
            printf "{\"call\":\"scsi\",\"cdb\":\"2a00%08x00000100\",\"data\":[[\"%02x\",512]],\"endpoint\":1,\"host\":1,\"secondary\":1}\n", int(rand() * blocks), i % 256
    }'
}

# The whole of a volume, written a MB at a time.
fill() { # MB
    mb=0
    while [ "$mb" -lt "$1" ]; do
        command "$(printf '9300%016x000008000000' $((mb * 2048)))" '[["a5",512]]'
        mb=$((mb + 1))
    done
}

repeat() { # TIMES WORD..
    left=$1
    shift
    while [ "$left" -gt 0 ]; do
        "$@"
        left=$((left - 1))
    done
}

# ---- what is measured, in files of lines: section, lines, seconds, quickest, KiB

field() { awk -F '\t' -v name="$1" -v n="$2" '$1 == name { print $n; found = 1 } END { if (!found) print "nan" }' measured; }
: >measured

say "one block at a time, 8 blocks a chunk"
{
    echo '# setting'; make $filled_mb; bind 1; fill $filled_mb
    echo '# writes 8'; drawn_writes $((filled_mb * 2048)) $writes
} | ./drive "$program" new a.img 32768 8 65536 >>measured || exit 1
rm -f a.img
limit_8=$(./limit limit.img 4096 32768 $writes)
rm -f limit.img

say "one block at a time, 2048 blocks a chunk"
{
    echo '# setting'; make $filled_mb; bind 1; fill $filled_mb
    echo '# writes 2048'; drawn_writes $((filled_mb * 2048)) $whole_writes
} | ./drive "$program" new a.img 128 2048 256 >>measured || exit 1
limit_2048=$(./limit limit.img 1048576 128 $whole_writes)
rm -f a.img limit.img

say "the same by SQLite, LMDB and qcow2"
sqlite=skipped lmdb=skipped qcow2=skipped
if ${CC:-cc} -O2 -o sqlite "$here/sqlite.c" -lsqlite3 2>/dev/null; then
    sqlite=$(./sqlite s.db $writes)
else
    say "SQLite is skipped: there is no libsqlite3-dev"
fi
if ${CC:-cc} -O2 -o lmdb "$here/lmdb.c" -llmdb 2>/dev/null; then
    lmdb=$(./lmdb l.db $writes)
else
    say "LMDB is skipped: there is no liblmdb-dev"
fi
if qemu-img --version >/dev/null 2>&1 && qemu-io --version >/dev/null 2>&1; then
    qemu-img create -q -f qcow2 q.qcow2 64M
    echo 'write -q -P 0xa5 0 64M' | qemu-io -f qcow2 q.qcow2 >/dev/null
    awk -v count="$writes" 'BEGIN { srand(7); for (i = 0; i < count; i++) printf "write -q -P %d %d 512\nflush\n", i % 256, int(rand() * 131072) * 512 }' >q.commands
    from=$(date +%s%N)
    qemu-io -f qcow2 q.qcow2 <q.commands >/dev/null
    qcow2=$(awk -v ns=$(($(date +%s%N) - from)) 'BEGIN { printf "%.6f\n", ns / 1e9 }')
else
    say "qcow2 is skipped: there is no qemu-utils"
fi
rm -f s.db* l.db* q.*

say "copies of a volume of $((volume_mb * 256)) chunks"
# the numbers of volumes are those of the calls that make them: 1 is made, bound by the second, and filled by as many as MB
number=$((2 + volume_mb))
{
    echo '# setting'; make $volume_mb; bind 1; fill $volume_mb
    echo '# a small change'
    n=0
    while [ $n -lt $times ]; do
        note "small $n"
        n=$((n + 1))
    done
    number=$((number + times))
    echo '# allocated bitmap'; repeat $times on allocatedBitmapVirtualVolume 1
    kept=$((number + 1))
    n=0
    while [ $n -lt $times ]; do
        echo '# snapshot'; on snapshotVirtualVolume 1
        number=$((number + 1))
        if [ $n -gt 0 ]; then
            echo '# delete'; on deleteVirtualVolume $number
            number=$((number + 1))
        fi
        n=$((n + 1))
    done
    echo '# unshared bitmap'
    repeat $times echo "{\"base\":\"$(id $kept)\",\"call\":\"unsharedBitmapVirtualVolume\",\"vvol\":\"$(id 1)\"}"
    n=0
    while [ $n -lt $times ]; do
        echo '# fast clone'; on fastCloneVirtualVolume 1
        number=$((number + 1))
        echo '# delete'; on deleteVirtualVolume $number
        number=$((number + 1))
        n=$((n + 1))
    done
    echo '# setting'; unbind
    number=$((number + 1))
    echo '# revert'
    repeat $times echo "{\"call\":\"revertVirtualVolume\",\"snapshot\":\"$(id $kept)\",\"vvol\":\"$(id 1)\"}"
    number=$((number + times))
    echo '# setting'; on snapshotVirtualVolume 1; on snapshotVirtualVolume 1
    number=$((number + 2))
    # up to a half that is full
    while [ $((number % 256)) -ne 0 ]; do
        note "n$number"
        number=$((number + 1))
    done
    echo '# pool'; echo '{"call":"queryPool"}'
} >copies.jsonl
./drive "$program" new a.img $pool 8 $map <copies.jsonl >copies || exit 1
awk -F '\t' '{ lines[$1] += $2; seconds[$1] += $3; if (!($1 in quickest) || $4 < quickest[$1]) quickest[$1] = $4; peak[$1] = $5 }
    END { for (name in lines) printf "%s\t%d\t%.6f\t%.6f\t%d\n", name, lines[name], seconds[name], quickest[name], peak[name] }' copies >>measured

say "opening it"
n=0
while [ $n -lt $times ]; do
    ./drive -o "$program" run a.img </dev/null
    n=$((n + 1))
done | sort -t "$(printf '\t')" -k 4 -n | head -n 1 >>measured
rm -f a.img

say "lines of 1 MiB"
bytes=$((line_blocks * 512))
moved=$(printf '00000000000%04x00' $line_blocks)
hex=$(head -c $bytes /dev/urandom | od -An -v -tx1 | tr -d ' \n')
{
    echo '# setting'; make 4; bind 1
    echo '# write MiB'; repeat $times command "2a0$moved" "[[\"$hex\",1]]"
    echo '# !parse MiB'; repeat $times command "2a0$moved" "[[\"$hex\",1]]" 0
    echo '# read MiB'; repeat $times command "280$moved"
    echo '# write even MiB'; repeat $times command "2a0$moved" "[[\"5a\",$bytes]]"
    echo '# read even MiB'; repeat $times command "280$moved"
} | ./drive "$program" new a.img 16 2048 256 >>measured || exit 1
rm -f a.img
limit_mib=$(./limit limit.img 1048576 16 $times)
rm -f limit.img

# ---- the table

row() { echo "| $1 | $2 | $3 | $4 | $5 |"; }
rate() { awk -v n="$1" -v s="$2" 'BEGIN { if (s == "skipped") print "skipped"; else printf "%.0f/s\n", n / s }'; }
ms() { awk -v s="$1" 'BEGIN { printf "%.2f ms\n", s * 1000 }'; }
over() { awk -v a="$1" -v b="$2" 'BEGIN { if (a == "skipped" || b == "skipped") print "-"; else printf "%.2f\n", a / b }'; }
mib() { awk -v k="$1" 'BEGIN { printf "%.1f MiB\n", k / 1024 }'; }
by() { awk -v s="$1" -v n="$2" 'BEGIN { if (s == "skipped") print s; else printf "%.9f\n", s / n }'; }

echo "$(date -u +%Y-%m-%d), $(awk -F ': ' '/^model name/ { print $2; exit }' /proc/cpuinfo), $(nproc) processors," \
    "$(awk '/^MemTotal/ { printf "%.0f", $2 / 1048576 }' /proc/meminfo) GiB, $(uname -sr)," \
    "$(df -T . | awk 'NR == 2 { print $2 " on " $1 }'), load $(cut -d ' ' -f 1 /proc/loadavg) at the end$([ $small -eq 1 ] && echo ', SMALL: these figures say nothing')"
echo
row "what" "the array" "beside it" "ratio" "target"
row "---" "---" "---" "---" "---"
ours_8=$(field 'writes 8' 3) ours_2048=$(field 'writes 2048' 3)
row "durable writes of a block, 8 blocks a chunk" "$(rate $writes "$ours_8")" "limit $(rate $writes "$limit_8")" "$(over "$limit_8" "$ours_8")" "at least 0.8"
row "durable writes of a block, 2048 blocks a chunk" "$(rate $whole_writes "$ours_2048")" "limit $(rate $whole_writes "$limit_2048")" "$(over "$limit_2048" "$ours_2048")" "at least 0.9"
row "durable writes of a block, 8 blocks a chunk" "$(rate $writes "$ours_8")" "qcow2, flushed $(rate $writes "$qcow2")" "$(over "$qcow2" "$ours_8")" "above 1"
row "the same" "$(rate $writes "$ours_8")" "SQLite, WAL, full $(rate $writes "$sqlite")" "$(over "$sqlite" "$ours_8")" "-"
row "the same" "$(rate $writes "$ours_8")" "LMDB $(rate $writes "$lmdb")" "$(over "$lmdb" "$ours_8")" "-"
small_change=$(field 'a small change' 4)
for what in snapshot 'fast clone' revert; do
    row "$what of a volume of $((volume_mb * 256)) chunks" "$(ms "$(field "$what" 4)")" "3 ms" "$(over "$(field "$what" 4)" 0.003)" "$([ "$what" = snapshot ] && echo 'below 1' || echo -)"
done
for what in 'allocated bitmap' 'unshared bitmap'; do
    row "$what of it" "$(ms "$(field "$what" 4)")" "20 ms" "$(over "$(field "$what" 4)" 0.02)" "below 1"
done
row "a question's line and reply (queryPool)" "$(ms "$(field pool 4)")" "-" "-" "-"
row "a small change (setMetadata)" "$(ms "$small_change")" "-" "-" "-"
row "opening an image with $(((volume_mb * 256) * 4)) entries and 256 records" "$(ms "$(field opening 4)")" "1 s" "$(over "$(field opening 4)" 1)" "below 1"
row "a write line of 1 MiB, each byte spelled" "$(ms "$(field 'write MiB' 4)")" "reading the same line, refused at its host $(ms "$(field '!parse MiB' 4)")" "$(over "$(field 'write MiB' 4)" "$(field '!parse MiB' 4)")" "at most 3"
row "a write line of 1 MiB, all bytes equal" "$(ms "$(field 'write even MiB' 4)")" "limit $(ms "$(by "$limit_mib" $times)")" "$(over "$(by "$limit_mib" $times)" "$(field 'write even MiB' 4)")" "-"
row "a read line of 1 MiB, each byte another" "$(ms "$(field 'read MiB' 4)")" "all bytes equal $(ms "$(field 'read even MiB' 4)")" "$(over "$(field 'read MiB' 4)" "$(field 'read even MiB' 4)")" "-"
bound=$(awk -v p="$map" 'BEGIN { printf "%.0f", (3 * (16 * p + 1048576) + 64 * 1048576) / 1024 }')
row "peak memory, at the copies" "$(mib "$(field pool 5)")" "3 areas and 64 MiB: $(mib "$bound")" "$(over "$(field pool 5)" "$bound")" "at most 1"
row "peak memory, at the opening" "$(mib "$(field opening 5)")" "$(mib "$bound")" "$(over "$(field opening 5)" "$bound")" "at most 1"
small_bound=$(awk 'BEGIN { printf "%.0f", (3 * (16 * 65536 + 1048576) + 64 * 1048576) / 1024 }')
row "peak memory, at writes of a block" "$(mib "$(field 'writes 8' 5)")" "$(mib "$small_bound")" "$(over "$(field 'writes 8' 5)" "$small_bound")" "at most 1"
line_bound=$(awk 'BEGIN { printf "%.0f", (3 * (16 * 256 + 1048576) + 64 * 1048576) / 1024 }')
row "peak memory, at lines of 1 MiB" "$(mib "$(field 'read even MiB' 5)")" "$(mib "$line_bound")" "$(over "$(field 'read even MiB' 5)" "$line_bound")" "at most 1"
