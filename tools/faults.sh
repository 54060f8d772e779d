#!/bin/sh
# Runs scripts of examples/ again and again with the built program over a real file, each time with one call of the system
# refused: each allocation in turn, each read, write and sync of the image, each read and write moving one byte alone, and the
# program killed ahead of each write and sync. Of each run it looks at three things:
#
# - it ends with a stated code;
# - its replies are those of the script without the lines that were refused for the fault (with a `restart` where the image
#   was opened again), run with no fault; a line answered WriteFault, or not answered at all, counts or doesn't;
# - what is left is opened again, and answers questions about every volume, its blocks, containers and tasks as the image of
#   that other run does. So it holds every line that was acknowledged.
#
#     tools/faults.sh [-p PROGRAM] [-n MOST] [KIND [SCRIPT]]
#
# PROGRAM is crates/vvols/out/vvols where none is named. KIND is memory, read, write, sync, short or stop (all where none is
# named), SCRIPT one of examples/ (clone, day and backup where none is named). With MOST at most so many calls are refused of
# each kind, at equal distances; else all are. It needs a C compiler, and takes some minutes to an hour. It is no part of the
# gate. The status is 0 where all is well.

# shellcheck disable=SC2086 # $words are three words
cd "$(dirname "$0")/.." || exit 2
program=crates/vvols/out/vvols
most=0
while getopts p:n: option; do
    case $option in
    p) program=$OPTARG ;;
    n) most=$OPTARG ;;
    *) exit 2 ;;
    esac
done
shift $((OPTIND - 1))
kinds=${1:-memory read write sync short stop}
scripts=${2:-clone day backup}
case $program in /*) ;; *) program=$PWD/$program ;; esac
if [ ! -x "$program" ]; then
    echo "faults: there is no program at $program: run rt ci here, or rt run in crates/vvols" >&2
    exit 2
fi
room=$(mktemp -d) || exit 2
trap 'rm -rf "$room"' EXIT
trap 'exit 2' HUP INT TERM
${CC:-cc} -shared -fPIC -O1 -o "$room/refuse.so" tools/refuse.c -ldl || exit 2
mkdir "$room/known"
restart='{"call":"restart"}'
bad=0

# Questions about all that an image may hold: the pool, the first 40 numbers as volumes, containers and tasks, and of each
# volume the first blocks of its chunks, which are read by a host that no script has.
questions() { # BLOCKS, of a chunk
    echo '{"call":"queryPool"}'
    number=1
    while [ "$number" -le 40 ]; do
        id=$(printf 'rfc4122.00000000-0001-8000-8000-%012x' "$number")
        echo "{\"call\":\"queryVirtualVolume\",\"vvol\":\"$id\"}"
        echo "{\"call\":\"queryStorageContainer\",\"container\":\"$id\"}"
        echo "{\"call\":\"getTaskUpdate\",\"task\":$number}"
        echo "{\"call\":\"allocatedBitmapVirtualVolume\",\"vvol\":\"$id\"}"
        echo "{\"call\":\"bindVirtualVolume\",\"host\":64,\"vvol\":\"$id\"}"
        chunk=0
        while [ "$chunk" -lt 24 ]; do
            printf '{"call":"scsi","cdb":"2800%08x00000400","endpoint":1,"host":64,"secondary":1}\n' $((chunk * $1))
            chunk=$((chunk + 1))
        done
        echo '{"call":"unbindVirtualVolume","endpoint":1,"host":64,"secondary":1}'
        number=$((number + 1))
    done
}

# Writes what a run without the fault is to be asked (SCRIPT) and to answer (WANTED, a * where it may answer anything), for
# the replies of one with it. With TAKEN 1 the line at which a write failed, or that was not answered, counts.
without_the_fault() { # SCRIPT REPLIES TAKEN KIND TO
    awk -v taken="$3" -v kind="$4" -v to="$5" -v restart="$restart" '
        function ask(line) { print line > (to ".script") }
        function want(reply) { print reply > (to ".wanted") }
        BEGIN { printf "" > (to ".script"); printf "" > (to ".wanted") }
        FNR == NR { line[++lines] = $0; next }
        /^\{"recovered":/ {
            if (line[at + 1] == restart) { held = $0; next }
            ask(restart); want($0); want("{\"ok\":true}"); next
        }
        { at++ }
        /"fault":"(NoMemory|ReadFault)"/ { held = ""; next }
        /"fault":"WriteFault"/ { if (taken && line[at] != restart) { ask(line[at]); want("*") } held = ""; next }
        { ask(line[at]); if (held != "") want(held); held = ""; want($0) }
        END {
            if (kind == "stop" && taken && at < lines && line[at + 1] != restart) { ask(line[at + 1]); want("*") }
        }
    ' "$1" "$2"
}

# Whether a file has the lines that are wanted.
has_wanted() { # WANTED FOUND
    awk '
        FNR == NR { wanted[++n] = $0; next }
        { if (++m > n || (wanted[m] != "*" && wanted[m] != $0)) { differs = 1; exit } }
        END { exit differs || m != n }
    ' "$1" "$2"
}

# Runs a script without a fault, and asks its image. What was run before is known already.
known() { # AT
    key=$(cat "$room/words" "$1.script" | cksum | tr ' ' -)
    at=$room/known/$key
    if [ ! -e "$at.told" ]; then
        "$program" new "$room/known.img" $words <"$1.script" >"$at.replies"
        "$program" run "$room/known.img" <"$room/questions" >"$at.told"
        rm -f "$room/known.img"
    fi
}

# Whether the replies and the image of a run with a fault are those of one without it.
holds() { # SCRIPT KIND
    for taken in 0 1; do
        without_the_fault "$1" "$room/replies" $taken "$2" "$room/ref"
        known "$room/ref"
        if has_wanted "$room/ref.wanted" "$at.replies" && cmp -s "$at.told" "$room/told"; then
            return 0
        fi
    done
    return 1
}

# One run with one call refused.
tried() { # NAME KIND NUMBER
    rm -f "$room/image"
    REFUSE_KIND=$2 REFUSE_CALL=$3 LD_PRELOAD=$room/refuse.so \
        "$program" new "$room/image" $words <"examples/$1.jsonl" >"$room/replies" 2>"$room/said"
    status=$?
    "$program" run "$room/image" <"$room/questions" >"$room/told" 2>"$room/again"
    again=$?
    case $2:$status in
    memory:0 | memory:8 | read:0 | read:7 | write:0 | write:7 | sync:0 | sync:7 | short:0 | stop:137) ;;
    *) return 1 ;;
    esac
    if [ "$2" = short ]; then
        cmp -s "$room/replies" "examples/$1.replies.jsonl" || return 1
    fi
    if [ ! -s "$room/replies" ] && [ "$again" -ne 0 ]; then
        # no line was answered, and there is no image yet
        [ "$again" -eq 5 ] || [ "$again" -eq 7 ]
    else
        [ "$again" -eq 0 ] && holds "examples/$1.jsonl" "$2"
    fi
}

for name in $scripts; do
    words=$(awk -v name="$name" '$1 == name { print $2, $3, $4 }' examples/words)
    if [ -z "$words" ]; then
        echo "faults: examples/words has no script $name" >&2
        exit 2
    fi
    echo "$words" >"$room/words"
    questions "$(echo "$words" | cut -d ' ' -f 2)" >"$room/questions"
    REFUSE_COUNTS=$room/counts LD_PRELOAD=$room/refuse.so \
        "$program" new "$room/image" $words <"examples/$name.jsonl" >"$room/replies" || exit 2
    for kind in $kinds; do
        calls=$(awk -v kind="$kind" '$1 == kind { print $2 }' "$room/counts")
        step=1
        if [ "$most" -gt 0 ] && [ "${calls:-0}" -gt "$most" ]; then
            step=$(((calls + most - 1) / most))
        fi
        number=1
        runs=0
        while [ "$number" -le "${calls:-0}" ]; do
            runs=$((runs + 1))
            if ! tried "$name" "$kind" "$number"; then
                bad=$((bad + 1))
                echo "faults: $name, $kind $number of $calls: status $status, $(wc -l <"$room/replies") lines of replies;" \
                    "opened again: status $again, $(cat "$room/said" "$room/again")"
            fi
            number=$((number + step))
        done
        echo "faults: $name, $kind: $runs runs, of ${calls:-0} calls"
    done
done
echo "faults: $bad not well"
[ "$bad" -eq 0 ]
