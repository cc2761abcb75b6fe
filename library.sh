#!/usr/bin/env bash
# Builds what a C host links, target/libselvedgeon.a, of two proved crates: the calls of the checkers, and those that read dumps. Each is a static library of its own
# (crates.txt); the objects of both are put into one archive.
set -euo pipefail
cd "$(dirname "$0")"
objects=$(mktemp -d)
trap 'rm -rf "$objects"' EXIT
for crate in selvedgeon selvedgeon_dumps; do
    (cd "crates/$crate" && rt lib)
    ar x --output "$objects" "crates/$crate/out/lib$crate.a"
done
mkdir -p target
rm -f target/libselvedgeon.a
ar rcs target/libselvedgeon.a "$objects"/*.o
echo "target/libselvedgeon.a has all calls of include/selvedgeon.h"
