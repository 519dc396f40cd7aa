#!/usr/bin/env bash
# faults.sh [PROGRAM]: runs each command with each open, read, write and sync of a file failing in turn, with calls that are
# interrupted or that take one byte, with every call cut to one byte, and over pipes that give and take little at a time.
# Compares status, output and files with what docs/commands.md says; of a command that writes two files, with a fault of each.
# PROGRAM is run in place of the built one. To add a command, add a row at the end.
set -u
top=$(cd "$(dirname "$0")/.." && pwd)
if ! command -v strace >/dev/null; then
  echo 'faults.sh: strace is missing; on Debian it is a package: apt-get install strace' >&2
  exit 1
fi
program=${1:-}
if [ -z "$program" ]; then
  program=$top/crates/rmt/out/rmt
  "$top/rmt" >/dev/null 2>&1 # builds it; without words the answer is Usage
  [ $? = 1 ] || exit 1
fi
work=$(mktemp -d)
trap 'rm -rf "$work"' EXIT
mkdir "$work/given" "$work/now"
tried=0
wrong=0

cat >"$work/short.c" <<'C'
#define _GNU_SOURCE
#include <dlfcn.h>
#include <unistd.h>
ssize_t read(int file, void *into, size_t n) {
    static ssize_t (*real)(int, void *, size_t); if (!real) real = dlsym(RTLD_NEXT, "read");
    return real(file, into, n > 1 ? 1 : n);
}
ssize_t write(int file, const void *from, size_t n) {
    static ssize_t (*real)(int, const void *, size_t); if (!real) real = dlsym(RTLD_NEXT, "write");
    return real(file, from, n > 1 ? 1 : n);
}
C
gcc -O1 -w -shared -fPIC -o "$work/short.so" "$work/short.c" -ldl || exit 1

# The files as they are before a call.
fresh() {
  cp "$work/given"/* "$work/now/"
  : >"$work/out"
}

# What a call without faults prints, and the files that it leaves: WORDS
learn() {
  fresh
  (cd "$work/now" && "$program" "$@" >"$work/out" 2>/dev/null)
  [ $? = 0 ] || { echo "faults.sh: $* fails without a fault" >&2; exit 1; }
  cp "$work/out" "$work/whole.out"
  cp "$work/now/made" "$work/whole.made"
  cp "$work/now/beside" "$work/whole.beside"
}

# Whether a file is as a word says: FILE WORD WHOLE BEFORE
is_as() {
  case $2 in
    any) true ;;
    before) cmp -s "$1" "$4" ;;
    whole) cmp -s "$1" "$3" ;;
    front) cmp -s "$1" <(head -c "$(stat -c %s "$1")" "$3") ;;
    # the first call said that it took one byte, and took none
    less) cmp -s "$1" <(tail -c +2 "$3") ;;
  esac
}

# Judges one call: NAME STATUS WANTED_STATUS OUT FILES, where FILES is how `made` is, and behind a `+` how `beside` is; without
# it that one is whole where `made` is written, and else as before. What writes one file alone leaves `beside`.
judge() {
  local good=yes made=${5%+*} beside=before file
  case $5 in
    *+*) beside=${5#*+} ;;
    whole | less) beside=whole ;;
  esac
  [ "$2" = "$3" ] || good=no
  is_as "$work/out" "$4" "$work/whole.out" /dev/null || good=no
  is_as "$work/now/made" "$made" "$work/whole.made" "$work/given/made" || good=no
  is_as "$work/now/beside" "$beside" "$work/whole.beside" "$work/given/beside" || good=no
  for file in "$work/given"/*; do
    case ${file##*/} in
      made | beside) ;;
      *) cmp -s "$file" "$work/now/${file##*/}" || good=no ;;
    esac
  done
  tried=$((tried + 1))
  if [ $good = no ]; then
    wrong=$((wrong + 1))
    echo "WRONG: $1: status $2, wanted $3, output $4, files $5"
  fi
}

# Whether the call that failed came behind the output, when a text is read again for a message.
is_late() {
  awk '/write\(1,/ { seen = 1 } /INJECTED/ { exit !seen }' "$work/log"
}

# Each call of a kind on a file, in turn: FILE CALL ANSWER STATUS OUT FILES WORDS
each() {
  local file=$1 call=$2 answer=$3 status=$4 out=$5 files=$6 paths number got
  shift 6
  # the output is traced beside the file, but where that would make its calls fail too
  paths=(-P "$file" -P "$work/out" -e "trace=$call,write")
  [ "$call" != write ] || paths=(-P "$file" -e "trace=$call")
  [ "$file" != out ] || paths=(-P "$work/out" -e "trace=$call")
  for ((number = 1; ; number++)); do
    fresh
    (cd "$work/now" && strace -f -qq -o "$work/log" "${paths[@]}" \
      -e inject="$call:$answer:when=$number" "$program" "$@" >"$work/out" 2>/dev/null)
    got=$?
    grep -q INJECTED "$work/log" || break
    if [ "$call" != write ] && is_late; then
      judge "$1, $call $number of $file for a message: $answer" $got 0 whole whole
    else
      judge "$1, $call $number of $file: $answer" $got "$status" "$out" "$files"
    fi
    [ "$out" != less ] && [ "${files%less}" = "$files" ] || return
  done
  if [ "$number" = 1 ]; then
    wrong=$((wrong + 1))
    echo "WRONG: $1: no $call of $file"
  fi
}

# A file that a command reads, which may be absent or fail to be read: FILE OUT WORDS, with what is printed
reads() {
  local file=$1 out=$2
  shift 2
  each "$file" openat error=EACCES 2 before before "$@"
  each "$file" openat error=ENOMEM 10 before before "$@"
  each "$file" read error=EIO 2 "$out" before "$@"
  each "$file" read error=EINTR 0 whole whole "$@"
}

# A file that a command writes: FILE FRONT WORDS, where FRONT is `whole+` if another file was written before it.
makes() {
  local file=$1 front=$2
  shift 2
  each "$file" openat error=EACCES 3 before "${front}any" "$@"
  each "$file" openat error=ENOMEM 10 before "${front}before" "$@"
  each "$file" write error=ENOSPC 3 before "${front}any" "$@"
  each "$file" write error=EINTR 0 whole whole "$@"
  each "$file" write retval=1 0 whole "${front}less" "$@"
  each "$file" fsync error=EIO 3 before "${front}any" "$@"
  each "$file" fsync error=EINVAL 0 whole whole "$@"
}

# Standard output: WORDS
prints() {
  each out write error=ENOSPC 3 front whole "$@"
  each out write error=EINTR 0 whole whole "$@"
  each out write retval=1 0 less whole "$@"
  fresh
  (cd "$work/now" && "$program" "$@" >/dev/full 2>/dev/null)
  judge "$1 to a full device" $? 3 before whole
}

# The same with every read and write cut to one byte, and through pipes: FILE WORDS, the file being read through a pipe
trickles() {
  local file=$1 word words=()
  shift
  fresh
  (cd "$work/now" && LD_PRELOAD=$work/short.so "$program" "$@" >"$work/out" 2>/dev/null)
  judge "$1, a byte a call" $? 0 whole whole
  fresh
  if [ "$file" != none ]; then
    for word in "$@"; do
      [ "$word" = "$file" ] && words+=(pipe) || words+=("$word")
    done
    mkfifo "$work/now/pipe"
    dd if="$work/given/$file" of="$work/now/pipe" bs=1 2>/dev/null &
  else
    words=("$@")
  fi
  (cd "$work/now" && "$program" "${words[@]}" 2>/dev/null) | dd of="$work/out" bs=1 2>/dev/null
  judge "$1 through pipes" "${PIPESTATUS[0]}" 0 whole whole
  wait
  rm -f "$work/now/pipe"
}

# A command: what it reads, a word a file (`packets` behind which a front is printed), what it writes (`no`, `made`, or `both`
# where it writes `beside` behind `made`), WORDS
command_row() {
  local files=$1 writes=$2 file first=none
  shift 2
  learn "$@"
  for file in $files; do
    [ "$first" != none ] || first=$file
    if [ "$file" = packets ]; then
      reads "$file" front "$@"
    else
      reads "$file" before "$@"
    fi
  done
  [ "$writes" = no ] || makes made '' "$@"
  [ "$writes" != both ] || makes beside whole+ "$@"
  prints "$@"
  trickles "$first" "$@"
  [ "$first" = packets ] || case " $files " in *" packets "*) trickles packets "$@" ;; esac
}

echo before >"$work/given/made"
echo before >"$work/given/beside"
awk 'BEGIN { for (k = 0; k < 3000; k++) printf "%d %02x%02x\n", k % 512, k % 256, k % 7 }' >"$work/many"
for example in smallest three_tables; do
  cp "$top/examples/$example.rmt" "$work/given/program"
  : >"$work/given/entries"
  for packets in "$top/examples/three.pkt" "$work/many"; do
    cp "$packets" "$work/given/packets"
    "$program" compile "$work/given/program" "$work/given/entries" "$work/given/image" "$work/given/map" >/dev/null 2>&1
    command_row 'program entries' made compile program entries made
    command_row 'program entries' both compile program entries made beside
    command_row 'program entries' made improve program entries made 10
    command_row 'image packets' no sim image packets
    command_row 'image packets' no probe image packets 2
    command_row 'program entries packets' no plain program entries packets
    command_row 'image' no report image
    command_row 'program entries image map' no verify program entries image map
  done
done
command_row '' no sample 3

echo "$tried calls, $wrong wrong"
[ "$wrong" = 0 ]
