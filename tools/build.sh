#!/bin/sh
# Proves and builds programs into target/bin, and static libraries into target/staticlib.
#   tools/build.sh NAME..
set -eu
cd "$(dirname "$0")/.."
mkdir -p target/bin target/staticlib
for name; do
    if [ -f "crates/$name/src/main.rt" ]; then
        made=out/$name
        to=target/bin
        command=run
    else
        made=out/lib$name.a
        to=target/staticlib
        command=lib
    fi
    # `rt run` also runs the program, on no input, and ends with its status: what counts is that it was built
    rm -f "crates/$name/$made"
    (cd "crates/$name" && rt $command) </dev/null >"target/$name.log" 2>&1 || true
    [ -f "crates/$name/$made" ] || { tail -5 "target/$name.log"; exit 1; }
    cp "crates/$name/$made" "$to/"
done
