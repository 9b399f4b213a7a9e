#!/usr/bin/env bash
# Runs the comparison's corners in both fields under valgrind, each store an allocation of its own, and the programs on
# the samples and on house files made by hand: nothing may be read or written outside of what is lent.
#
#   tools/valgrind.sh [--cases N] [NAME ...]
#
# NAME is a call, normlist or drawlist; without one, all of them. N random cases more are run for each call (default 0).
# It takes about five minutes, after proving and building what is missing or old; it is no part of the gate. ACE_SRC names
# the folder of the Rust, as for ./differential. What can't be run counts as failed.
set -euo pipefail

# shellcheck source=tools/common.sh
. "$(dirname "$(readlink -f "$0")")/common.sh"
if asks_for_help "$@"; then
  head_comment "$(readlink -f "$0")"
  exit 0
fi
enter_root
cases=0
if [ "${1:-}" = --cases ]; then
  cases=${2:?--cases takes a number}
  shift 2
fi
[ $# -gt 0 ] || set -- step build compact normalize evaluate prepare lower draw emit normlist drawlist
command -v valgrind > /dev/null || fail "valgrind is not on the PATH"
need_rust
fresh archive ace
for name in normlist drawlist; do
  fresh program $name
done
rust_program differential "about half a minute"

differential=rust/target/release/differential
logs=target/valgrind
rm -rf $logs
mkdir -p $logs/normlist $logs/drawlist
watch="valgrind -q --error-exitcode=99 --redzone-size=1024 --max-stackframe=4000000 --num-callers=6"
clean=0 bad=0

# Counts what ended so, with its log.
verdict() {
  local name=$1 status=$2 log=$3 said
  said=$(grep -E 'passed, [0-9]+ failed$' $logs/"$name".out | tail -n 1 || true)
  if [ "$status" != 0 ] || [ -s "$log" ] || [ -z "$said" ]; then
    bad=$((bad + 1))
    echo "$name: FAILED, status $status; ${said:-$(tail -n 1 $logs/"$name".out)}"
    head -n 16 "$log"
  else
    clean=$((clean + 1))
    echo "$name: no invalid read or write; $said"
  fi
}

# Runs the corners of a call.
call() {
  local status=0
  : > $logs/"$1".log
  $watch --log-file=$logs/"$1".log $differential --call "$1" --corners --bare --cases "$cases" > $logs/"$1".out 2>&1 ||
    status=$?
  verdict "$1" $status $logs/"$1".log
}

# Runs a program on every sample, then on one in 13 of the files made by hand.
program() {
  local name=$1 program=$PWD/target/bin/$1 watched status=0 sample
  watched="$watch --log-file=$PWD/$logs/$name/%p.log $program"
  for sample in samples/*.house; do
    $watched < "$sample" > /dev/null || [ $? -lt 99 ] || status=99
  done
  printf '#!/bin/sh\nexec %s\n' "$watched" > $logs/watched
  chmod +x $logs/watched
  $differential --call "$name" --corners --every 13 --program $logs/watched > $logs/"$name".out 2>&1 || status=$?
  cat $logs/"$name"/*.log > $logs/"$name".log
  verdict "$name" $status $logs/"$name".log
}

for name; do
  case $name in
    normlist | drawlist) program "$name" ;;
    *) call "$name" ;;
  esac
done
echo "$clean passed, $bad failed"
[ $bad = 0 ]
