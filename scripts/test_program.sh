#!/usr/bin/env bash
# Tests program.sh with a false `rt`, over a few crates of which each is a line of text: when it builds, in what order and how many at a
# time, what it says and with which status it ends. Takes some seconds, and proves nothing. Each fault is told on standard error.
# (the cases are called by their names)
# shellcheck disable=SC2317
set -euo pipefail

scripts=$(CDPATH='' cd -- "$(dirname -- "$(readlink -f -- "${BASH_SOURCE[0]}")")" && pwd -P)

# Writes the false `rt`, which notes in the file `$CALLS` when it begins and ends, and keeps others out of the crate and of those below it.
# The text of a crate says what becomes of it: `right`; `wrong`; `beside NAME`, which ends once NAME has begun; `edit`, a source that is
# written meanwhile; or `signal NAME`, which the one that started it gets when part of the work is done.
write_rt() {
    cat >"$1" <<'RT'
#!/usr/bin/env bash
set -euo pipefail
crate=${PWD##*/}
below=$(sed -n "s/^$crate://p" ../../crates.txt)
read -r text other <src/lib.rt
note() { echo "$1 $crate" >>"$CALLS"; }
for it in $below "$crate"; do
    exec {lock}<"../$it"
    flock -n "$lock" || { echo "rt: waiting for another rt to finish in $it" >&2; flock "$lock"; }
done
for it in $below; do
    [[ -e ../$it/out/rlib/stamp ]] || note "no $it for"
done
note begin
echo $$ >>"$CALLS.processes"
case $text in
    wrong) echo "it is not proved" && exit 1 ;;
    beside) until grep -q "begin $other" "$CALLS"; do sleep 0.1; done ;;
    edit) touch -- "${CALLS%/*}/crates/$crate/src/lib.rt" ;;
    signal) mkdir -p out && echo part >out/part && kill -s "$other" "$PPID" && sleep 90 ;;
esac
made=out/$crate
[[ $1 == run ]] || made=out/rlib/stamp
mkdir -p out/rlib
printf '%s\n' '#!/usr/bin/env bash' 'echo "ran $*"; exit "${2-0}"' >"$made"
chmod +x "$made"
note end
RT
    chmod +x "$1"
}

# Makes a repository for a case in a folder of its own, goes there, and sets the file of calls. `apart` has no part in the program.
begin() {
    local it
    cd -- "$(mktemp -d -p "$room" "$1.XXXXXX")"
    chmod 755 .
    export CALLS=$PWD/calls
    : >calls
    cp -R -- "$scripts" .
    printf '%s\n' 'top: upper' 'upper: left right base' 'left: base' 'right: base' 'base:' 'apart: base' >crates.txt
    for it in top upper left right base apart; do
        mkdir -p "crates/$it/src"
        echo right >"crates/$it/src/lib.rt"
    done
    printf '%s\n' 'set -euo pipefail' 'source scripts/program.sh' "run_program \"\$PWD\" it top word \"\$@\"" >it
}

# is WHAT FOUND WANTED
is() {
    [[ $2 == "$3" ]] || { echo "test_program: $1: '$2', and not '$3'" >&2; return 1; }
}

# has WHAT FILE TEXT
has() {
    grep -qF -e "$3" -- "$2" || { echo "test_program: $1: no '$3' in:" && cat -- "$2" && return 1; } >&2
}

# Makes these files newer than what is built.
renew() {
    touch -d '+10 seconds' -- "$@"
}

# Prints the status. (`timeout` also has the signal INT come through to what is started beside others.)
run_it() {
    local status=0
    timeout --preserve-status -k 1 60 bash it "$@" >out 2>err </dev/null || status=$?
    echo "$status"
}

# Keeps others out of a crate until it is said that somebody waits.
hold() {
    rm -f held
    : >err
    (
        flock 9
        : >held
        timeout 30 bash -c 'until grep -q waiting err; do sleep 0.1; done' || :
    ) 9<"crates/$1" &
    until [[ -e held ]]; do sleep 0.1; done
}

# Each library after those below it, `left` and `right` side by side, and all once.
test_order() {
    begin order
    echo 'beside right' >crates/left/src/lib.rt
    echo 'beside left' >crates/right/src/lib.rt
    is 'status of the program' "$(run_it a 3)" 3
    is 'output' "$(<out)" 'ran a 3'
    is 'first built' "$(head -n 2 calls | tr '\n' ' ')" 'begin base end base '
    is 'side by side' "$(sed -n 3,4p calls | sort | tr '\n' ' ')" 'begin left begin right '
    is 'last built' "$(tail -n 4 calls | tr '\n' ' ')" 'begin upper end upper begin top end top '
    is 'calls' "$(wc -l <calls)" 10
    is 'left behind' "$(find crates -name 'building.*')" ''
    has 'progress' err 'it: proving left'
}

# Nothing is built again for a crate that has no part in the program; what changed is, with what stands on it.
test_renewal() {
    begin renewal
    is 'first status' "$(run_it)" 0
    : >calls
    renew crates/apart/src/lib.rt
    echo 'mine: base' >>crates.txt
    is 'status beside a further crate' "$(run_it)" 0
    is 'built beside a further crate' "$(<calls)" ''
    renew crates/right/src
    is 'status after a change' "$(run_it)" 0
    is 'built after a change' "$(grep -c begin calls)" 3
    ! grep -E 'base|left' calls >&2 || return 1
}

# A line of crates.txt below the program counts as a source.
test_line() {
    begin line
    is 'first status' "$(run_it)" 0
    : >calls
    sed -i 's/^left: base/left: base apart/' crates.txt
    is 'status after a line changed' "$(run_it)" 0
    has 'built after a line changed' calls 'end top'
}

# What is written while it is built is newer than what was built.
test_edit() {
    begin edit
    echo edit >crates/left/src/lib.rt
    echo wrong >crates/upper/src/lib.rt
    is 'first status' "$(run_it)" 126
    echo right >crates/upper/src/lib.rt
    is 'second status' "$(run_it)" 0
    is 'built twice' "$(grep -c 'begin left' calls)" 2
}

# Where the lock of a crate is held, by whoever, that is said.
test_waiting() {
    begin waiting
    hold base
    is 'status after waiting' "$(run_it)" 0
    has 'waiting for a library' err 'it: waiting for another rt in crates/base'
    renew crates/top/src/lib.rt
    hold upper
    is 'status after waiting' "$(run_it)" 0
    has 'waiting of rt' err 'it: waiting for another rt, before top'
    renew crates/top/src
    hold top
    is 'status after waiting' "$(run_it)" 0
    has 'waiting for the program' err 'it: waiting for another rt in crates/top'
}

test_together() {
    local status=0
    begin together
    bash it one >out1 2>err1 &
    bash it two >out2 2>err2 || status=$?
    is 'status of one start' "$status" 0
    wait "$!" || status=$?
    is 'status of the other' "$status" 0
    is 'output' "$(cat out1 out2 | tr '\n' ' ')" 'ran one ran two '
    is 'calls' "$(wc -l <calls)" 10
}

# A fault has no status of the program's.
test_faults() {
    begin faults
    echo wrong >crates/left/src/lib.rt
    is 'status where a proof fails' "$(run_it)" 126
    has 'what rt said' err 'it is not proved'
    has 'message' err 'it: the program could not be proved and built'
    ! grep -E 'upper|top' calls >&2 || return 1
    echo right >crates/left/src/lib.rt
    if ! PATH=/usr/bin:/bin command -v rt >/dev/null; then
        is 'status without rt' "$(PATH=/usr/bin:/bin run_it)" 127
    fi
    echo 'base:' >crates.txt
    is 'status where a line is missing' "$(run_it)" 126
    rm crates.txt
    is 'status where crates.txt is missing' "$(run_it)" 126
}

# Before anything is built. (Whoever may do all is given another name here.)
test_no_permission() {
    local -a as=()
    local status=0
    begin permission
    chmod 555 crates/*
    if [[ -w crates/base ]]; then
        as=(setpriv --reuid=65534 --regid=65534 --clear-groups)
    fi
    "${as[@]}" bash it >out 2>err </dev/null || status=$?
    is 'status without permission' "$status" 126
    has 'message' err 'no permission to write in'
    is 'calls' "$(<calls)" ''
    chmod 755 crates/*
}

# usage PROGRAM CRATE STATUS LAST: the usage of a program comes at once, from its first line to its last, and nothing is built.
usage() {
    local status=0
    mkdir -p "crates/$2/src"
    cp -- "$scripts/../$1" .
    cp -- "$scripts/../crates/$2/src/words.rt" "crates/$2/src"
    bash "./$1" --help >out 2>err </dev/null || status=$?
    is "status of $1 --help" "$status" "$3"
    is "start of $1 --help" "$(head -c $((8 + ${#1})) out)" "usage: $1 "
    is "end of $1 --help" "$(tail -n 1 out)" "$4"
    is "errors of $1 --help" "$(<err)" ''
    is "calls of $1 --help" "$(<calls)" ''
}

test_usage() {
    begin usage
    usage flurry-run flurry_run_words 2 'usage: flurry-run seq | world | threads N M'
    usage stress stress 0 '  --hasher NAME  default, low (a key is its own hash) or zero (each key has the hash 0)'
    usage bench flurry_bench 0 '  --csv         lines with commas, without the legend'
    echo 'pub fn main() {}' >crates/stress/src/words.rt
    ! bash ./stress --help >out 2>err || return 1
    has 'a fault' err 'stress: there is no usage in'
}

# interrupt SIGNAL STATUS: all ends, and what was built is kept.
interrupt() {
    local it
    begin "interrupt-$1"
    echo "signal $1" >crates/right/src/lib.rt
    is "status after $1" "$(run_it)" "$2"
    while read -r it; do
        ! kill -0 "$it" 2>/dev/null || { echo "test_program: a build outlives $1" >&2 && return 1; }
    done <calls.processes
    is "left behind after $1" "$(find crates -name 'building.*')" ''
    has "what was done before $1" crates/right/out/part part
    echo right >crates/right/src/lib.rt
    is "status of a start after $1" "$(run_it)" 0
    is "built again after $1" "$(grep -c 'end base' calls)" 1
}

test_interrupt() {
    interrupt INT 130
}

test_end() {
    interrupt TERM 143
}

room=$(mktemp -d)
trap 'rm -rf -- "$room"' EXIT
chmod 755 "$room"
mkdir "$room/bin"
write_rt "$room/bin/rt"
PATH=$room/bin:$PATH

# Each case by itself, all side by side. (`set -e` holds in each, since none is part of a condition.)
declare -A case_of=()
for it in order renewal line edit waiting together faults no_permission usage interrupt end; do
    ("test_$it") &
    case_of[$!]=$it
done
status=0
for it in "${!case_of[@]}"; do
    wait "$it" || { echo "test_program: the case ${case_of[$it]} failed" >&2 && status=1; }
done
exit "$status"
