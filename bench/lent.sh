#!/bin/sh
# Refuses each allocation in turn of calls that change a value which is lent to them, and looks whether the value stays
# as it was (bench/lent/main.rattle).
#
#     sh bench/lent.sh
#
# It builds the program, without proof, on a copy of the crates, which it removes. It ends with 0 where no run changed a
# lent value, and each ended with 0, 7 or 8.
set -u
top=$(cd "$(dirname "$0")/.." && pwd)
work=$(mktemp -d)
trap 'rm -rf "$work"' EXIT
mkdir -p "$work/crates/lent/src"
for crate in mls_base mls_lexer mls_book mls_typetext mls_automaton mls_scheme; do
  mkdir "$work/crates/$crate"
  cp -r "$top/crates/$crate/src" "$top/crates/$crate/specs" "$top/crates/$crate/proofs" "$work/crates/$crate/"
  grep "^$crate:" "$top/crates.txt" >>"$work/crates.txt"
done
echo 'lent: mls_base mls_automaton mls_scheme' >>"$work/crates.txt"
cp "$top/HANDLES" "$work/HANDLES"
cp "$top/bench/lent/main.rattle" "$work/crates/lent/src/main.rt"
sh "$top/bench/build.sh" "$work/crates/lent" "$work/program" || exit 2
cd "$work" || exit 2
cc -O1 -shared -fPIC -o refuse.so "$top/bench/refuse.c" -ldl || exit 2
failed=0
: >mark
for call in state add_flow append absorb; do
  number=0
  wanting=0
  while :; do
    number=$((number + 1))
    REFUSE=$number REFUSED=$work/mark LD_PRELOAD=$work/refuse.so ./program $call
    code=$?
    refused=
    read -r refused <mark
    [ "$refused" = "$number" ] || break
    case $code in
      0 | 8) ;;
      7) wanting=$((wanting + 1)) ;;
      *)
        echo "FAILED  $call with allocation $number refused: code $code"
        failed=1
        ;;
    esac
  done
  echo "$call: $((number - 1)) allocations refused, $wanting of them in the call, with nothing changed"
done
exit $failed
