#!/bin/sh
# Memory, stack and time of a receiver's dearest input, measured in one run on this machine.
set -eu
cd "$(dirname "$0")/.."
out=target/bench
mkdir -p $out
tools/build.sh receiver_c
gcc -O3 -Wall -Wextra bench/receiver.c bench/sha256_loop.c target/staticlib/libreceiver_c.a \
    "$(dirname "$(rt doc)")/c/libos_c.a" "$(dirname "$(rt doc)")/c/liblibc_c.a" -o $out/receiver
$out/receiver
