#!/bin/sh
# Runs the program where files, output, words, memory and the start are as seldom: each case has to end with its code,
# and never by a signal.
#
#     sh bench/edges.sh crates/mlsub/out/mlsub [TEXTS]
#
# It works in a folder of its own, which it removes, and ends with 0 where all cases ended so. Where a folder of texts is
# given, as `infer-bench write TEXTS` makes it, each is inferred, checked against its own signature, and derived, and
# what is derived is verified.
set -u
[ $# -eq 1 ] || [ $# -eq 2 ] || { echo "usage: sh bench/edges.sh PROGRAM [TEXTS]" >&2; exit 2; }
program=$(readlink -f "$1") || exit 2
texts=$(readlink -f "${2:-/dev/null}")
top=$(cd "$(dirname "$0")/.." && pwd)
work=$(mktemp -d)
trap 'rm -rf "$work"' EXIT
cd "$work" || exit 2
failed=0

# is WANTED WHAT COMMAND ..: the command ends with this code within ten seconds.
is() {
  wanted=$1
  what=$2
  shift 2
  timeout 10 "$@" >out 2>err
  got=$?
  if [ "$got" -eq "$wanted" ]; then
    echo "ok      $wanted  $what"
  else
    echo "FAILED  $got instead of $wanted  $what"
    failed=1
  fi
}

# prints TEXT: the last command wrote just this line.
prints() {
  if [ "$(cat out)" != "$1" ]; then
    echo "FAILED  it wrote '$(head -c 200 out)' instead of '$1'"
    failed=1
  fi
}

echo 'let id = fun x -> x' >id.ml
echo 'val id : a -> a' >id.mli

# files
mkdir folder.ml
is 5 "a file that is a folder" "$program" infer folder
ln -s loop.ml loop.ml
is 5 "a link to itself" "$program" infer loop
ln -s there.ml here.ml
ln -s here.ml there.ml
is 5 "a loop of links" "$program" infer here
ln -s nowhere.ml broken.ml
is 4 "a link to nothing" "$program" infer broken
echo 'let x = 1' >secret.ml
chmod 000 secret.ml
if [ "$(id -u)" -eq 0 ]; then
  echo "left    a file without the right to read it: this user may read all"
else
  is 5 "a file without the right to read it" "$program" infer secret
fi
mkfifo pipe.ml
is 124 "a pipe without a writer: the program waits, and the time limit ends it" "$program" infer pipe
timeout 10 sh -c 'sleep 1; cat id.ml >pipe.ml' &
is 0 "a pipe with a writer" "$program" infer pipe
prints "val id : a -> a"
wait
mkdir lib lib/near.ml
echo 'let x = true' >lib/far.ml
is 0 "a file in lib alone" "$program" infer far
prints "val x : bool"
is 5 "a folder in lib" "$program" infer near
mkdir far.ml
is 5 "a folder that hides a file in lib" "$program" infer far
rmdir far.ml
head -c 1048576 /dev/zero | tr '\0' ' ' >whole.ml
is 0 "a text as long as its limit" "$program" infer whole
(cat whole.ml; echo) >longer.ml
is 11 "a text that is one byte too long" "$program" infer longer
head -c 100000 /dev/urandom >noise.ml
is 3 "bytes that are no text" "$program" infer noise

# output
is 6 "output that is full" sh -c '"$0" infer id >/dev/full' "$program"
is 6 "output that is closed" sh -c '"$0" infer id >&-' "$program"
is 6 "a reader that has gone, where its signal is ignored" \
  sh -c 'trap "" PIPE; { sleep 1; "$0" infer id; echo $? >code; } | true; exit $(cat code)' "$program"

# words
long=$(head -c 100000 /dev/zero | tr '\0' a)
is 8 "a word of 100,000 bytes that is no command" "$program" "$long"
is 5 "a file name that is longer than names of files may be" "$program" infer "$long"
head -c 1048576 /dev/zero | tr '\0' a >word
is 126 "a word of 1 MiB: the system starts no program with one" sh -c '"$0" infer "$(cat word)"' "$program"
is 8 "2,000 words" sh -c '"$0" $(seq 2000)' "$program"
is 14 "a word that is no UTF-8" "$program" infer "$(printf '\377')"

# stack and memory
is 0 "a stack of 64 KiB" sh -c 'ulimit -s 64; "$0" infer id' "$program"
prints "val id : a -> a"
{ printf 'let d = '; i=0; while [ $i -lt 199 ]; do printf '('; i=$((i + 1)); done; printf 1
  i=0; while [ $i -lt 199 ]; do printf ')'; i=$((i + 1)); done; } >deep.ml
is 0 "the deepest nesting with a stack of 64 KiB" sh -c 'ulimit -s 64; "$0" infer deep' "$program"
is 0 "memory of 64 MiB" sh -c 'ulimit -v 65536; "$0" infer id' "$program"
prints "val id : a -> a"
{ echo 'let p0 = fun x -> {a = x, b = x}'; i=0
  while [ $i -lt 40 ]; do echo "let p$((i + 1)) = fun x -> p$i (p$i x)"; i=$((i + 1)); done; } >grows.ml
is 7 "types that outgrow memory of 64 MiB" sh -c 'ulimit -v 65536; timeout 60 "$0" infer grows' "$program"

# generated modules
is 0 "a generated module" "$program" generate 1 4
prints "generate: 4 bindings, 182 bytes in, 120 bytes out"
is 0 "the longest generated module" "$program" generate 1 10000
is 0 "the same with memory of 64 MiB" sh -c 'ulimit -v 65536; "$0" generate 1 10000' "$program"
is 0 "the same with a stack of 64 KiB" sh -c 'ulimit -s 64; "$0" generate 1 10000' "$program"
is 8 "a generated module that is longer" "$program" generate 1 10001
is 8 "a word that begins with a hyphen" "$program" generate -- 1 4
is 6 "a summary on output that is full" sh -c '"$0" generate 1 4 >/dev/full' "$program"

# derivations
is 4 "a derivation that is absent" "$program" verify id
prints "id.mld: not found"
mkdir id.mld
is 5 "a derivation that is a folder" "$program" verify id
rmdir id.mld
# derives WANTED WHAT FORMAT FIRST LAST TAIL: behind four nodes and two steps stands this line for each of the numbers,
# and then the tail.
derives() {
  { printf '%s\n' 'derivation 1' 'val id : a -> a' 'node fn 1 2' 'node var 0' 'node var 0' 'node fn 1 1' \
      'step 0 var env 0 1 type 1' 'step 1 fun 0 env type 3'
    printf "$6"
    seq -f "$3" "$4" "$5"
    echo end; } >id.mld
  is "$1" "$2" "$program" verify id
}
derives 9 "80,000 let numbers" 'let %.0f 0' 1 80000 ''
derives 9 "80,000 variables that are put" 'put %.0f 0' 1 80000 'step 1 sub 1 env type 0\n'
{ printf '%s\n' 'derivation 1' 'val id : a -> a' 'node fn 1 2' 'node var 0' 'node var 0'
  yes 'node fn 1 1' | head -n 297
  printf '%s\n' 'step 0 var env 0 1 type 1' 'step 1 fun 0 env type 3' 'step 1 sub 1 env type 0'
  i=0; while [ $i -lt 300 ]; do seq -f "pair lr $i %.0f" 0 299; i=$((i + 1)); done
  echo end; } >id.mld
is 9 "90,000 pairs" "$program" verify id
{ printf '%s\n' 'derivation 1' 'val id : a -> a' 'node fn 1 2' 'node var 0' 'node var 0'
  yes 'node fn 1 1' | head -n 80000
  echo end; } >id.mld
is 9 "80,000 nodes" "$program" verify id
{ printf '%s\n' 'derivation 1' 'val id : a -> a' 'node fn 1 2' 'node var 0' 'node var 0'
  printf 'step 0 var env'; seq -f ' %.0f 1' 0 90000 | tr -d '\n'; echo ' type 1'
  echo end; } >id.mld
is 9 "a step with 90,000 binders" "$program" verify id
{ printf '%s\n' 'derivation 1' 'val id : a -> a' 'node fn 1 2' 'node var 0' 'node var 0'
  printf 'node rcd'; seq -f ' a%06.0f 1' 0 90000 | tr -d '\n'; echo
  echo end; } >id.mld
is 9 "a node with 90,000 fields" "$program" verify id
{ printf '%s\n' 'derivation 1' 'val id : a -> a' 'node fn 1 2' 'node var 0' 'node var 0'
  printf 'let '; head -c 1048576 /dev/zero | tr '\0' 1; echo ' 0'; } >id.mld
is 3 "a number of 1,048,576 digits" "$program" verify id
prints "id.mld:6: fault 19: bad line"
head -c 100000 /dev/urandom >id.mld
is 3 "bytes that are no derivation" "$program" verify id
head -c 67108865 /dev/zero >id.mld
is 11 "a derivation that is one byte too long" "$program" verify id
rm id.mld

# derived NAME: `derive` ends as `infer` did, or with 7 where 6 GB are not enough for it. What it printed is verified,
# or longer than a derivation may be.
derived() {
  (cd worst && exec timeout 120 "$program" infer "$1" >/dev/null 2>&1)
  inferred=$?
  (cd worst && ulimit -v 6291456 && exec timeout 600 "$program" derive "$1" >"$1.mld" 2>/dev/null)
  got=$?
  what="the derivation of $1"
  wanted=$inferred
  if [ "$inferred" -eq 0 ] && [ "$got" -eq 7 ]; then
    wanted=7
    what="a derivation that outgrows 6 GB, of $1"
  elif [ "$got" -eq 0 ]; then
    (cd worst && exec timeout 120 "$program" verify "$1" >/dev/null 2>&1)
    got=$?
    [ "$(wc -c <"worst/$1.mld")" -le 67108864 ] || wanted=11
  fi
  if [ "$got" -eq "$wanted" ]; then
    echo "ok      $got  $what"
  else
    echo "FAILED  $got instead of $wanted  $what"
    failed=1
  fi
}

# the worst texts of a mebibyte
if [ -d "$texts" ]; then
  mkdir worst
  cp "$texts"/*.mli worst/
  for text in "$texts"/*.ml; do
    name=$(basename "$text" .ml)
    cp "$text" worst/
    (cd worst && exec timeout 120 "$program" infer "$name" >"$name.mli" 2>/dev/null)
    got=$?
    case $got in
      0)
        (cd worst && exec timeout 120 "$program" check "$name" >/dev/null 2>&1)
        got=$?
        # a signature may be longer than an interface may be
        wanted=0
        [ "$(wc -c <"worst/$name.mli")" -le 1048576 ] || wanted=11
        ;;
      1 | 3 | 4) wanted=$got ;;
      *) wanted="0, 1, 3 or 4" ;;
    esac
    if [ "$got" = "$wanted" ]; then
      echo "ok      $got  the text $name"
    else
      echo "FAILED  $got instead of $wanted  the text $name"
      failed=1
    fi
    derived "$name"
    rm -f "worst/$name.mld"
  done
fi

# the start script
if [ -x "$top/mlsub" ]; then
  copy=$work/copy
  mkdir -p "$copy/crates/mlsub/out" "$copy/crates/mlsub/src" bin
  cp "$top/mlsub" "$copy/mlsub"
  echo 'fn main() {}' >"$copy/crates/mlsub/src/main.rt"
  echo 'mlsub:' >"$copy/crates.txt"
  is 125 "a start script without a toolchain" env PATH=/usr/bin:/bin "$copy/mlsub" infer id
  # a toolchain that is interrupted while it builds, and one that builds
  printf '#!/bin/sh\nkill -INT $$\n' >bin/rt
  chmod +x bin/rt
  is 125 "a build that was interrupted" env PATH="$work/bin:$PATH" "$copy/mlsub" infer id
  printf '#!/bin/sh\ncp "%s" out/mlsub\nexit 8\n' "$program" >bin/rt
  is 0 "a build behind an interrupted one" env PATH="$work/bin:$PATH" "$copy/mlsub" infer id
  prints "val id : a -> a"
  printf '#!/bin/sh\nexit 1\n' >bin/rt
  is 0 "a program that is newer than its sources" env PATH="$work/bin:$PATH" "$copy/mlsub" infer id
  sleep 1
  touch "$copy/crates/mlsub/src/main.rt"
  is 125 "a source that is newer than the program, and does not build" env PATH="$work/bin:$PATH" "$copy/mlsub" infer id
fi
exit $failed
