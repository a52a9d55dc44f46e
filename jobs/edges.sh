#!/usr/bin/env bash
# Jobs at the limit of length, through the program itself. It stands outside the gate, which stores one
# input for each program. Usage: jobs/edges.sh [PROGRAM]
set -eu
program=${1:-crates/plan_plain/out/plan_plain}

# A set-up, and restarts up to a length.
job() {
    printf '\001\002\004\020\000'
    head -c $(($1 - 5)) /dev/zero | tr '\000' '\006'
}

expect() {
    [ "$2" = "$3" ] || { echo "$1: '$2', expected '$3'" >&2; exit 1; }
}

expect "16,384 bytes" "$(job 16384 | "$program" | tail -n 1)" "16384 end"
expect "16,384 bytes, lines" "$(job 16384 | "$program" | wc -l)" 16381
expect "16,385 bytes" "$(job 16385 | "$program")" "0 refused 1 job"
expect "no end" "$( (yes || true) | "$program")" "0 refused 1 job"
expect "nothing" "$("$program" < /dev/null)" "0 end"
echo "all as expected"
