#!/bin/sh
# Builds the library for C, and examples/fold against it. Needs rt and gcc on the path.
set -eu
cd "$(dirname "$0")/.."
kit=$(dirname "$(rt doc)")
(cd crates/yilmacrab_c && rt lib)
mkdir -p examples/out
gcc -std=c11 -O2 -Wall -Wextra -Iinclude examples/fold.c \
    crates/yilmacrab_c/out/libyilmacrab_c.a "$kit/c/liblibc_c.a" -o examples/out/fold
echo examples/out/fold
