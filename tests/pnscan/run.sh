#!/usr/bin/env bash
# The program pnscan on a few of the stored jobs, the longest among them: what it prints, and whether it ends with status 1,
# which it does exactly after a fault line, and then with the fault as its error. It is built by `rt try`, which proves nothing; `rt ci` proves it and runs it once,
# and the program `test_jobs` runs all stored jobs through the same library.
set -eu

root=$(cd "$(dirname "$0")/../.." && pwd)
tmp=$(mktemp -d)
trap 'rm -rf "$tmp"' EXIT

mkdir "$tmp/cases"
cp "$root"/examples/*.job "$root"/crates/test_jobs/data/{fault_1[0-4],fault_4,fault_8}_*.job "$root"/crates/test_jobs/data/{job_65536,apart,one_hit_covers,across_windows,tail,equal_hash,random_0,random_1}.job "$tmp/cases/"
(cd "$root/crates/pnscan" && rt try --cases "$tmp/cases") >"$tmp/log" 2>&1 || true

for job in "$tmp"/cases/*.job; do
    name=$(basename "$job" .job)
    out=$root/crates/test_jobs/data/$name.out
    echo "== $name.job"
    cat "$out"
    if fault=$(grep '^fault ' "$out"); then
        echo "Error: $fault"
        status=1
    else
        status=0
    fi
    echo "case=$name.job run=ended status=$status"
done >"$tmp/wanted"

if ! diff "$tmp/wanted" <(sed '/^cases=/d; /^case=/s/ runners=.*//' "$tmp/log") >"$tmp/differences"; then
    head -n 20 "$tmp/differences" >&2
    echo "pnscan: not what the stored jobs say" >&2
    exit 1
fi
echo "pnscan: $(ls "$tmp/cases" | wc -l) jobs as stored"
