# shellcheck shell=bash
# Sourced by `test`, at the top of the repository: what is seen in the sources before anything is proved, since no proof sees it. Each
# fault is told on standard error.

# The first example of README is the code of a file of `docs_comments`, which is proved and run. So it cannot go stale.
check_first_example() {
    local code=crates/docs_comments/src/tests/first.rt
    # The first block of README, and the file from its first line that is code.
    if ! diff -u --label README.md --label "$code" \
        <(awk '/^```rust$/ { inside = 1; next } /^```$/ && inside { exit } inside' README.md) \
        <(awk 'begun || (NF && !/^\/\//) { begun = 1; print }' "$code") >&2; then
        echo "test: the first example of README is not the code of $code" >&2
        return 1
    fi
}

# check_makers CRATE TYPE FUNCTION..: outside of the crate these functions alone make a value of the type. A contract says what is true of
# a claim, a receipt or a read that somebody has, and none can say that there is no further function that makes one.
check_makers() {
    local crate=$1 type=$2 faults
    shift 2
    faults=$(find "crates/$crate/src" -name '*.rt' -exec awk -v type="$type" -v makers="$*" -f scripts/makers.awk {} +) || return 1
    if [[ -n $faults ]]; then
        echo "test: ${faults//$'\n'/$'\n'test: }" >&2
        return 1
    fi
}

# Each library that a line of crates.txt lists is named in that crate's texts: one that is not costs the gate minutes, and proves nothing.
check_libraries() {
    local crate libraries library status=0
    while IFS=: read -r crate libraries; do
        crate=${crate%% *}
        for library in $libraries; do
            if ! grep -rqsE "\b(Rattle\.$library\b|$library::|use $library\b)" "crates/$crate"/{src,specs,proofs,must-fail}; then
                echo "test: crates.txt lists $library for $crate, whose texts do not name it" >&2
                status=1
            fi
        done
    done <crates.txt
    return "$status"
}

# All of these checks.
check_sources() {
    local status=0
    check_first_example || status=1
    check_libraries || status=1
    python3 -B scripts/links.py . || status=1
    python3 -B scripts/api.py --check . || status=1
    python3 -B scripts/examples.py . || status=1
    python3 -B scripts/rust_tests.py . || status=1
    check_makers flurry_steps_claims Range || status=1
    check_makers flurry_steps_claims Attempt try_claim || status=1
    check_makers flurry_steps_control Claim of into_range || status=1
    check_makers flurry_steps_control PublishedTable start || status=1
    check_makers flurry_bins_slots Receipt || status=1
    check_makers flurry_bins_slots MoveAnswer move_into || status=1
    check_makers flurry_bins_slots Slot live live_at unborn || status=1
    check_makers flurry_steps_sweep Seen seen try_clone || status=1
    check_makers flurry_steps_sweep Sweep clear walk || status=1
    return "$status"
}
