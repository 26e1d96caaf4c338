#!/usr/bin/env bash
# How long a load of the largest parish takes: microseconds, on standard error.
cd "$(dirname "$0")/.." || exit 1
bench=$(tools/built bench_load) || exit 1
exec "$bench"
