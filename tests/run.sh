#!/bin/sh
# Builds the proved receiver's library, the programs and the twin, compares them on random inputs, and then
# plants differences in the twin, each of which must be found.
#   tests/run.sh [SIZE [SEED]]
# SIZE is 120 if it isn't given (about a minute); SEED is printed, and by chance if it isn't given.
set -eu
cd "$(dirname "$0")/.."
size=${1:-120}
seed=${2:-$(date +%s)}
out=target/tests
mkdir -p $out
tools/build.sh receiver_c speaker listener
rustc -O --edition 2024 -D warnings tests/src/main.rs -o $out/compare \
    -L native=target/staticlib -L native="$(dirname "$(rt doc)")/c"
$out/compare "$seed" "$size"
$out/compare "$seed" 500 plants
echo "tests: nothing differs, and every plant was found"
