#!/bin/sh
# Writes target/native/libNAME.a, a proved library for C and for programs in Rust.
# NAME is a static library of crates.txt, or a library over which the crate NAME_c is one.
set -eu
name=${1:?give the name of a library crate, for example: tools/native.sh timed}
cd "$(dirname "$0")/.."
[ "$(uname -m)" = x86_64 ] || {
    echo "the kit builds libraries for x86-64 alone, and this machine is $(uname -m): build it on an x86-64 machine" >&2
    exit 1
}
crate=$name
[ ! -d "crates/${name}_c" ] || crate=${name}_c
mkdir -p target/native
(cd "crates/$crate" && rt lib) >target/native/log 2>&1 || {
    tail -n 20 target/native/log
    exit 1
}
cp "crates/$crate/out/lib$crate.a" "target/native/lib$name.a"
