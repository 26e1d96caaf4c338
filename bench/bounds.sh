#!/usr/bin/env bash
# How long a lower bound with a flow takes, in microseconds, on standard error: first in the proved program, then in its
# unproved twin in Rust. Ends with status 1 where the two do not print the same sums.
cd "$(dirname "$0")/.." || exit 1
bench=$(tools/built bench_bounds) || exit 1
twin=target/twin/bounds
mkdir -p target/twin && rustc --edition 2021 -O -o "$twin" bench/twin/bounds.rs || exit 1
echo 'proved:' >&2
proved=$("$bench") || exit 1
echo 'twin:' >&2
unproved=$("$twin") || exit 1
echo "$proved"
if [ "$proved" != "$unproved" ]; then
    echo 'the twin has other sums:'
    echo "$unproved"
    exit 1
fi
