#!/bin/sh
# Runs the differential tests under valgrind, on a share of their inputs (in per cent, 1 unless
# given), and fails on any error that it reports.
set -eu
cd "$(dirname "$0")/.."
RCL2000_PERCENT=${1:-1}
export RCL2000_PERCENT
for test in agreement conformance done leavers readers sessions shares threads stack; do
    program=$(cargo test --release -p differential --test "$test" --no-run 2>&1 |
        sed -n 's/^ *Executable .*(\(.*\))$/\1/p')
    echo "$test: $program"
    valgrind --quiet --error-exitcode=1 "$program" --test-threads=1
done
