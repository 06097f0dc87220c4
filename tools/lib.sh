#!/bin/sh
# The library for C and Rust, in target/lib: libvirdzeba.a, which is crate host_c's archive, and virdzeba.pc for pkg-config.
set -eu
cd "$(dirname "$0")/.."
tools/build.sh host_c
cmp -s bindings/virdzeba.pc target/lib/virdzeba.pc || cp bindings/virdzeba.pc target/lib/virdzeba.pc
