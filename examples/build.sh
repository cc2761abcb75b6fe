#!/usr/bin/env bash
# Builds the C examples against the header and the proved library, and runs them. $1: the library (default: build it).
set -euo pipefail
cd "$(dirname "$0")/.."
library=${1:-}
if [ -z "$library" ]; then
    ./library.sh
    library=target/libselvedgeon.a
fi
mkdir -p target/examples
for example in recheck pieces; do
    gcc -std=c11 -Wall -Wextra -Werror -O2 -Iinclude "examples/$example.c" "$library" -o "target/examples/$example"
done
echo "-- examples/recheck.c"
target/examples/recheck
echo "-- examples/pieces.c"
target/examples/pieces crates/marks/stdin
