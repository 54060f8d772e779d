#!/bin/sh
# Runs each script of examples/ with the built program, on a new image in a folder of its own, and compares the replies
# with those that are stored. Then it compares the lines and replies that docs/GUIDE.md, docs/CALLS.md and docs/SCSI.md show with
# the scripts from which they are taken.
#
#     tools/examples.sh [PROGRAM]
#
# PROGRAM is crates/vvols/out/vvols where none is named: `rt ci` and `rt run` leave it there. The status is 0 where
# all is equal, 1 where something differs, and 2 where there is no program to run.

cd "$(dirname "$0")/.." || exit 2
program=${1:-crates/vvols/out/vvols}
if [ ! -x "$program" ]; then
    echo "examples: there is no program at $program: run rt ci here, or rt run in crates/vvols" >&2
    exit 2
fi
room=$(mktemp -d) || exit 2
trap 'rm -rf "$room"' EXIT
trap 'exit 2' HUP INT TERM
equal=0
differing=0

# Counts what the last comparison came to, and says where the two files differ first.
told() { # NAME WANTED FOUND
    if cmp -s "$2" "$3"; then
        equal=$((equal + 1))
        return
    fi
    differing=$((differing + 1))
    echo "examples: $1 differs from $2, wanted (<) and found (>):" >&2
    diff "$2" "$3" | head -n 6 | cut -c 1-400 >&2
}

# Runs one script, and compares its replies and its end.
replayed() { # NAME WORD..
    name=$1
    shift
    "$program" "$@" <"examples/$name.jsonl" >"$room/replies" 2>"$room/said"
    status=$?
    if [ "$status" -ne 0 ]; then
        echo "examples: $name ended with status $status: $(cat "$room/said")" >&2
        echo "status $status" >>"$room/replies"
    fi
    told "$name" "examples/$name.replies.jsonl" "$room/replies"
}

# Writes each line of a script with its replies behind it. A reply that tells a recovered number has one more behind it.
beside() { # NAME
    awk -v again="$(case $1 in *.again) echo 1 ;; esac)" '
        NR == FNR { reply[++replies] = $0; next }
        FNR == 1 && again { print reply[++at] }
        { print; print reply[++at] }
        reply[at] ~ /^\{"recovered"/ { print reply[++at] }
    ' "examples/$1.replies.jsonl" "examples/$1.jsonl"
}

# Compares the lines of a page that begin with a brace with scripts and their replies.
shown() { # PAGE NAME..
    page=$1
    shift
    for name; do beside "$name"; done >"$room/wanted"
    grep '^{' "$page" >"$room/shown"
    told "$page" "$room/wanted" "$room/shown"
}

while read -r name chunks blocks map; do
    case $name in '' | '#'*) continue ;; esac
    image=$room/$name.img
    replayed "$name" new "$image" "$chunks" "$blocks" "$map"
    if [ -e "examples/$name.again.jsonl" ]; then
        replayed "$name.again" run "$image"
    fi
    rm -f "$image"
done <examples/words
shown docs/GUIDE.md guide guide.again
shown docs/CALLS.md calls
shown docs/SCSI.md commands

echo "examples: $equal equal, $differing differing"
[ "$differing" -eq 0 ]
