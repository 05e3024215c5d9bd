#!/bin/sh
# Builds the program of a crate without any proof, for measurements and trials.
#
#     sh bench/build.sh crates/mlsub PROGRAM
#
# `rt try` translates the crate; its bitcode is compiled here as it stands, without the checks that `rt try` adds,
# and optimised as the kit's compiler does.
set -u
[ $# -eq 2 ] || { echo "usage: sh bench/build.sh CRATE PROGRAM" >&2; exit 2; }
program=$(readlink -f "$2") || exit 2
kit=$(dirname "$(rt doc)")
work=$(mktemp -d)
trap 'rm -rf "$work"' EXIT
mkdir "$work/tmp"
cd "$1" || exit 2
TMPDIR=$work/tmp rt try -- nothing >"$work/told" 2>&1 &
trying=$!
# second names keep the bitcode when `rt try` removes its folders; the largest is the program's
while kill -0 $trying 2>/dev/null; do
  for module in "$work"/tmp/*/*/module.bc; do
    ln "$module" "$work/$(ls -i "$module" 2>/dev/null | cut -d ' ' -f 1).bc" 2>/dev/null
  done
  sleep 0.05
done
module=$(ls -S "$work"/*.bc 2>/dev/null | head -n 1)
[ -n "$module" ] || { cat "$work/told" >&2; exit 1; }
"$kit/toolchain/bin/clang" -O3 -o "$program" "$module" "$kit/c/libos_c.a" "$kit/c/liblibc_c.a"
