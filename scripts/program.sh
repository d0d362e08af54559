# shellcheck shell=bash
# Sourced by the scripts at the top that run a program of this repository, or build a static library. A fault of these scripts has the
# status 126, or 127 where there is no `rt`; the statuses from 0 on are the program's.

# The repository, the name that messages begin with, the crate, what is made of it, as messages call it, and its file, a word with which the
# program ends at once, and the folder where it is built.
root='' name='' crate='' kind='program' file='' word='' room=''
# What below.awk says of the program's crate; its crates, each after those on which it stands; by crate, these, and its line in crates.txt.
lines='' crates=()
declare -A below=() line=()
# By crate: the process that builds it; that it is built; what was last said of it.
declare -A builder=() built=() said=()
is_ending=

# say TEXT: on standard error, in place of the line that tells how far it is.
say() {
    [[ ! -t 2 ]] || printf '\r\033[K' >&2
    echo "$name: $1" >&2
}

# fail TEXT [STATUS]
fail() {
    say "$1"
    exit "${2:-126}"
}

# However this script ends: what it started ends too, and what was proved of a library is kept.
finish() {
    local status=$? it
    trap '' INT TERM HUP
    is_ending=yes
    for it in "${!builder[@]}"; do
        kill -- "-${builder[$it]}" 2>/dev/null || kill "${builder[$it]}" 2>/dev/null || :
        wait "${builder[$it]}" 2>/dev/null || :
        [[ $it == "$crate" ]] || keep_work "$it" || :
    done
    [[ -z $room ]] || rm -rf -- "$room"
    case $status in
        126 | 127 | 129 | 130 | 143) exit "$status" ;;
        *) exit 126 ;;
    esac
}

read_crates() {
    local it those text
    lines=$(awk -v top="$crate" -f "$root/scripts/below.awk" "$root/crates.txt")
    while IFS='|' read -r it those text; do
        crates+=("$it")
        below[$it]=$those
        line[$it]=$text
    done <<<"$lines"
}

# is_fresh FILE CRATE..: whether the file is there, and no source of these crates is newer. A folder counts too, so that a file that went
# away is seen.
is_fresh() {
    local file=$1 it part newer
    local -a parts=()
    shift
    [[ -f $file ]] || return 1
    for it in "$@"; do
        for part in src specs proofs; do
            [[ ! -e $root/crates/$it/$part ]] || parts+=("$root/crates/$it/$part")
        done
    done
    newer=$(find "${parts[@]}" -newer "$file" -print -quit) || return 1
    [[ -z $newer ]]
}

# Whether the program is there, and nothing that it stands on has changed, lines of crates.txt among them.
is_program_fresh() {
    local out=$root/crates/$crate/out
    [[ $kind != program || -x $out/$file ]] || return 1
    [[ -f $out/$file && -f $out/lines && $(<"$out/lines") == "$lines" ]] && is_fresh "$out/$file" "${crates[@]}"
}

# (`rt` writes the file `stamp` of a library last)
is_library_fresh() {
    local -a those
    read -ra those <<<"${below[$1]}"
    is_fresh "$root/crates/$1/out/rlib/stamp" "$1" "${those[@]}"
}

# Stops before anything is proved that could not be kept.
check_writable() {
    local it
    for it in "${crates[@]}"; do
        it=$root/crates/$it
        if [[ ! -w $it || (-e $it/out && ! -w $it/out) ]]; then
            fail "the $kind is not built, or older than its sources, and cannot be built: there is no permission to write in $it"
        fi
    done
}

# lock DESCRIPTOR WHOSE: waits until nobody else has the lock of the folder that is open there. Some file systems have no locks.
lock() {
    local status told=
    while :; do
        status=0
        flock -n -E 75 "$1" || status=$?
        ((status == 75)) || return 0
        [[ -z $is_ending ]] || return 1
        [[ -n $told ]] || say "waiting for $2"
        told=yes
        sleep 0.5
    done
}

# copy_crate CRATE LANE [all]: its sources, its line, and its library, or all that was made of it.
copy_crate() {
    local from=$root/crates/$1 to=$2/crates/$1 it
    mkdir -p -- "$to/out"
    echo "${line[$1]}" >>"$2/crates.txt"
    for it in src specs proofs; do
        [[ ! -e $from/$it ]] || cp -a -- "$from/$it" "$to"
    done
    (
        lock 9 "another rt in crates/$1"
        if [[ -n ${3-} && -e $from/out ]]; then
            cp -a -- "$from/out" "$to"
        elif [[ -e $from/out/rlib ]]; then
            # (`rt` makes the files of a library anew, and writes into none; some file systems have no such links)
            cp -al -- "$from/out/rlib" "$to/out" 2>/dev/null || cp -a -- "$from/out/rlib" "$to/out"
        fi
    ) 9<"$from"
}

# Takes what was made of a library, whole or not, into the repository.
keep_work() {
    local from=$room/$1/crates/$1/out to=$root/crates/$1
    [[ -e $from ]] || return 0
    # What was written while it was built is newer than the library, also where nothing had to be built.
    [[ ! -e $from/rlib/stamp ]] || touch -r "$room/$1/started" -- "$from/rlib/stamp"
    (
        lock 9 "another rt in crates/$1" || exit 0
        [[ ! -e $to/out ]] || mv -- "$to/out" "$room/$1/old"
        mv -- "$from" "$to/out"
    ) 9<"$to"
}

# Starts the proof and the build of a crate. A library has a folder of its own, since `rt` keeps all below a crate to itself while it builds
# that, and so would build no two side by side in one. The one with the longest chain above it has up to four processors, before others.
start() {
    local it at=$root behind=0 jobs=4
    local -a those command=(rt run ${word:+-- "$word"})
    [[ $kind == program ]] || command=(rt lib)
    for it in "${crates[@]}"; do
        [[ $it != "$1" ]] || break
        [[ -z ${builder[$it]-} ]] || behind=10 jobs=2
    done
    ((jobs <= processors)) || jobs=$processors
    mkdir -- "$room/$1"
    : >"$room/$1/log"
    : >"$room/$1/started"
    if [[ $1 == "$crate" ]]; then
        exec 7<&-
    else
        at=$room/$1
        command=(rt lib --jobs "$jobs")
        read -ra those <<<"${below[$1]}"
        for it in "${those[@]}"; do
            copy_crate "$it" "$at"
        done
        copy_crate "$1" "$at" all
    fi
    # It runs in a group of processes of its own, so that all of it ends where this script is interrupted.
    (cd -- "$at/crates/$1" && exec setsid nice -n "$behind" "${command[@]}") </dev/null >"$room/$1/log" 2>&1 7<&- 8<&- &
    builder[$1]=$!
}

# Takes what was built of a crate.
end() {
    local status=0 out=$root/crates/$1/out
    wait "${builder[$1]}" || status=$?
    [[ $1 == "$crate" ]] || keep_work "$1"
    unset "builder[$1]"
    if ((status)) || [[ $1 == "$crate" && ! -f $out/$file ]]; then
        cat -- "$room/$1/log" >&2
        fail "the $kind could not be proved and built (status $status of 'rt' in crates/$1)"
    fi
    if [[ $1 == "$crate" ]]; then
        touch -r "$room/$1/started" -- "$out/$file"
        echo "$lines" >"$out/lines"
    fi
    built[$1]=yes
    rm -rf -- "${room:?}/$1"
}

# Says what is proved, and what waits. On a terminal that is one line, which is overwritten and says how far it is. (By builtins alone: bash
# can lose the signal INT that comes while it waits for a command whose output it takes.)
tell_progress() {
    local it text doing far all="${#built[@]} of ${#crates[@]} crates"
    local -a log
    for it in "${crates[@]}"; do
        [[ -n ${builder[$it]-} ]] || continue
        doing="proving $it" far='' text=''
        mapfile -t log <"$room/$it/log"
        for text in "${log[@]}"; do
            if [[ $text =~ ^so\ far:\ ([0-9]+\ of\ [0-9]+)\ functions || $text =~ ^checked\ .*,\ ([0-9]+\ of\ [0-9]+)$ ]]; then
                far=${BASH_REMATCH[1]}
            fi
        done
        if [[ $text == rt:*waiting\ for* ]]; then
            doing="waiting for another rt, before $it"
        fi
        all+=", $doing${far:+: $far}"
        [[ -t 2 || ${said[$it]-} == "$doing" ]] || say "$doing"
        said[$it]=$doing
    done
    [[ ! -t 2 ]] || printf '\r\033[K%s' "$name: ${all:0:65}" >&2
}

# Whether the crate is still to be built, and all below it is built.
is_ready() {
    local it
    local -a those
    [[ -z ${built[$1]-} && -z ${builder[$1]-} ]] || return 1
    read -ra those <<<"${below[$1]}"
    for it in "${those[@]}"; do
        [[ -n ${built[$it]-} ]] || return 1
    done
}

# Builds the program, and before it what it stands on, side by side: as many crates as there are processors and memory, of which each may
# take 3 GB.
build_crates() {
    local it processors memory most=3
    processors=$(nproc)
    memory=$(awk '$1 == "MemAvailable:" { print int($2 / 3000000) }' /proc/meminfo)
    ((most <= processors)) || most=$processors
    ((most <= memory)) || most=$((memory ? memory : 1))
    for it in "${crates[@]}"; do
        if [[ $it != "$crate" ]] && is_library_fresh "$it"; then
            built[$it]=yes
        fi
    done
    until [[ -n ${built[$crate]-} ]]; do
        for it in "${crates[@]}"; do
            if ((${#builder[@]} < most)) && is_ready "$it"; then
                start "$it"
            fi
        done
        tell_progress
        sleep 0.5
        for it in "${!builder[@]}"; do
            kill -0 "${builder[$it]}" 2>/dev/null || end "$it"
        done
    done
    [[ ! -t 2 ]] || printf '\r\033[K' >&2
}

# Proves and builds the program, unless another of these scripts does while this one waits for it. `rt run` also runs it: here on an empty
# input, and on the word with which it ends at once.
build() {
    local out=$root/crates/$crate/out
    if ! command -v rt >/dev/null 2>&1; then
        fail "the $kind is not built, or older than its sources, and the command 'rt' of the Rattle kit, which proves and builds it, is not on the PATH" 127
    fi
    check_writable
    exec 8<"$root/crates"
    lock 8 "another start, which builds a program"
    # (until the program itself is built, so that no `rt` takes its folder away)
    exec 7<"$root/crates/$crate"
    lock 7 "another rt in crates/$crate"
    if ! is_program_fresh; then
        say "proving and building the $kind; the first time takes minutes"
        mkdir -p -- "$out"
        # (what was left by a start that was killed)
        rm -rf -- "$out"/building.* || :
        room=$(mktemp -d -- "$out/building.XXXXXX")
        build_crates
        rm -rf -- "$room"
        room=
    fi
    exec 7<&- 8<&-
}

# Proves and builds where what is made of the crate is not there, or where what it stands on has changed.
freshen() {
    trap finish EXIT
    trap 'exit 129' HUP
    trap 'exit 130' INT
    trap 'exit 143' TERM
    read_crates
    is_program_fresh || build
}

# run_program ROOT NAME CRATE WORD ARG..: becomes the program of the crate with these arguments. It is proved and built first where it is
# not there, or where what it stands on has changed. WORD is one with which the program ends at once with status 0, or empty where it does
# so with none.
run_program() {
    root=$1 name=$2 crate=$3 word=$4 kind='program' file=$3
    shift 4
    freshen
    exec "$root/crates/$crate/out/$crate" "$@"
}

# tell_usage ROOT NAME CRATE: writes the usage of a program as the source of the crate has it, where nothing need be built to read it: the
# text that begins with `usage:`.
tell_usage() {
    local text
    root=$1 name=$2
    text=$(awk -v RS='"' '/^usage: / { print; exit }' "$root/crates/$3/src/words.rt") || text=''
    [[ -n $text ]] || fail "there is no usage in crates/$3/src/words.rt"
    printf '%s\n' "$text"
}

# build_archive ROOT NAME CRATE: proves and builds the static library of the crate in the same cases. Returns once it is there.
build_archive() {
    root=$1 name=$2 crate=$3 word='' kind='static library' file=lib$3.a
    freshen
    trap - EXIT HUP INT TERM
}

# is_archive_fresh ROOT NAME CRATE: whether the static library is there, and nothing that it stands on has changed.
is_archive_fresh() {
    root=$1 name=$2 crate=$3 word='' kind='static library' file=lib$3.a
    read_crates
    is_program_fresh
}
