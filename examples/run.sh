#!/bin/sh
# Builds the receiver's static library and the example in C, and runs it.
set -eu
cd "$(dirname "$0")/.."
out=target/examples
mkdir -p $out
tools/build.sh receiver_c
gcc -O2 -Wall -Wextra examples/receiver.c bench/sha256_loop.c target/staticlib/libreceiver_c.a \
    "$(dirname "$(rt doc)")/c/libos_c.a" "$(dirname "$(rt doc)")/c/liblibc_c.a" -o $out/receiver
$out/receiver
