#!/usr/bin/env bash
# Tries the built program on faults that only the system can make: files that aren't there or can't be read, files at and
# above the limit of 2^26 bytes, words that aren't text, and outputs that fail. It builds nothing.
# Each line begins with PASS or FAIL (or SKIP, where the system can't make the fault). Status 0 where nothing failed, else 1.
set -u
top="$(dirname "$(dirname "$(readlink -f "${BASH_SOURCE[0]}")")")"
program="${SOLPOOL:-$top/crates/solpool/out/solpool}"
usage='usage: solpool [--absgap D] [--relgap D] [--nodes N] [--demo N] [FILE]'
limit=67108864
if [[ ! -x "$program" ]]; then
    echo "FAIL no program $program: build it first by ./solpool"
    exit 1
fi
folder="$(mktemp -d)"
trap 'rm -rf "$folder"' EXIT
cd "$folder" || exit 1
failed=0

verdict() { # verdict NAME HOLDS DETAIL
    if [[ "$2" == yes ]]; then
        echo "PASS $1"
    else
        echo "FAIL $1: $3"
        failed=1
    fi
}

# judge NAME STATUS OUTPUT WORD..: the program on these words ends with this status and prints exactly this
judge() {
    local name="$1" status="$2" wanted="$3" printed got
    shift 3
    printed="$("$program" "$@" < /dev/null 2> stderr)"
    got=$?
    if [[ "$printed" == "$wanted" && $got == "$status" ]]; then
        verdict "$name" yes ''
    else
        verdict "$name" no "printed '${printed:0:200}' with status $got, and not '$wanted' with status $status"
    fi
}

# peak WORD..: the peak of the memory that the program holds on these words, in KiB
peak() {
    /usr/bin/time -f %M -o memory "$program" "$@" > /dev/null 2>&1
    tail -n 1 memory
}

# below NAME KIB WORD..: the peak of the memory is below this many KiB
below() {
    local name="$1" most="$2" held
    shift 2
    if [[ ! -x /usr/bin/time ]]; then
        echo "SKIP $name: no /usr/bin/time"
        return
    fi
    held="$(peak "$@")"
    if [[ "$held" -lt "$most" ]]; then
        verdict "$name ($held KiB)" yes ''
    else
        verdict "$name" no "$held KiB, and not below $most"
    fi
}

printf 'Minimize\n obj:\nBinaries\n x y z\nEnd\n' > free.lp
truncate -s "$limit" full.lp
truncate -s $((limit + 1)) over.lp
mkdir folder.lp
ln -s /dev/null empty.lp
ln -s /dev/zero endless.LP
wide="$(printf ' x%d' {1..16})"
printf 'Minimize\n obj:\nBinaries\n%s\nEnd\n' "$wide" > sixteen.lp
listing="$(printf '%s\n' 'status done' 'optimum 0' 'solutions 8' '0 :' '0 : z 1' '0 : y 1' '0 : y 1 z 1' \
    '0 : x 1' '0 : x 1 z 1' '0 : x 1 y 1' '0 : x 1 y 1 z 1')"

judge 'a file that can be read' 0 "$listing" free.lp
judge 'a path with a folder in it' 0 "$listing" "$folder/free.lp"
judge 'a file that is not there' 1 'refused 51 file absent' none.lp
judge 'a folder as FILE' 1 'refused 52 file fault' folder.lp
judge 'a name that is not UTF-8' 2 "$usage" $'caf\xe9.lp'
judge 'an empty file' 1 'refused 1 syntax line 1' empty.lp
judge 'a file of 2^26 bytes' 1 'refused 1 syntax line 1' full.lp
judge 'a file of 2^26 + 1 bytes' 1 'refused 53 file too long' over.lp
judge 'a stream without an end' 1 'refused 53 file too long' endless.LP
judge 'a name with another ending' 1 'refused 41 bad argument' /dev/zero
below 'a file of 2^26 + 1 bytes takes less than 8 MiB' 8192 over.lp
below 'a stream without an end takes less than 3 * 2^26 bytes' 196608 endless.LP
judge 'no words' 2 "$usage"
judge 'two words' 2 "$usage" free.lp free.lp
judge 'a word of 100,000 bytes' 1 'refused 52 file fault' "$(head -c 100000 /dev/zero | tr '\0' x).lp"
if [[ $(id -u) == 0 ]]; then
    echo 'SKIP a file without permission: the user may read all files'
else
    cp free.lp closed.lp
    chmod 000 closed.lp
    judge 'a file without permission' 1 'refused 52 file fault' closed.lp
fi

for name in free.lp sixteen.lp none.lp; do
    "$program" "$name" > /dev/full 2> stderr
    status=$?
    verdict "a full device as output, $name" "$([[ $status == 4 ]] && echo yes)" "status $status, and not 4"
done
"$program" free.lp >&- 2> stderr
status=$?
verdict 'a closed output' "$([[ $status == 4 ]] && echo yes)" "status $status, and not 4"

# pipe NAME: the program's output goes to a pipe that nobody reads, with SIGPIPE as the caller has it
pipe() {
    { sleep 0.3; "$program" "$1"; echo $? > status; } | true
    cat status
}
status="$(pipe sixteen.lp)"
verdict 'a closed pipe' "$([[ $status == 4 ]] && echo yes)" "status $status, and not 4"
status="$(trap '' PIPE; pipe sixteen.lp)"
verdict 'a closed pipe, where the caller ignores SIGPIPE' "$([[ $status == 4 ]] && echo yes)" "status $status, and not 4"

# what went out before a fault is a prefix of the whole text
"$program" sixteen.lp > whole
"$program" sixteen.lp | head -c 100000 > front
verdict 'what a closed pipe got is a prefix' "$(cmp -s -n 100000 whole front && echo yes)" 'it differs'

exit $failed
