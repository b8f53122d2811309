#!/bin/sh
# Builds everything, and measures it in one run on this machine. No argument; run it from anywhere.
set -eu
cd "$(dirname "$0")/.."
for tool in rt gcc rustc; do
    command -v $tool >/dev/null || { echo "bench: $tool is missing" >&2; exit 2; }
done
out=target/bench
mkdir -p $out
if ! printf '#include <openssl/evp.h>\n' | gcc -E -x c - >/dev/null 2>&1; then
    echo "bench: OpenSSL's headers are missing: apt-get install libssl-dev" >&2
    exit 2
fi
tools/build.sh sha256_c
gcc -O3 -Wall -Wextra -c bench/sha256_loop.c -o $out/sha256_loop.o
gcc -O3 -Wall -Wextra -c bench/sha256_unrolled.c -o $out/sha256_unrolled.o
rustc --edition 2024 -C opt-level=3 -C panic=abort bench/sha256_portable.rs -o $out/libsha256_portable.a
gcc -O3 -Wall -Wextra bench/bench.c $out/sha256_loop.o $out/sha256_unrolled.o target/staticlib/libsha256_c.a \
    "$(dirname "$(rt doc)")/c/libos_c.a" "$(dirname "$(rt doc)")/c/liblibc_c.a" $out/libsha256_portable.a -lcrypto -o $out/bench
grep -m1 'model name' /proc/cpuinfo || true
rt version
gcc --version | head -1
rustc --version
openssl version
$out/bench "OpenSSL with SHA instructions where the processor has them"
# Bit 29 of the second word masks the SHA extensions.
OPENSSL_ia32cap=":~0x20000000" $out/bench "OpenSSL without SHA instructions"
