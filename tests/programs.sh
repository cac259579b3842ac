#!/usr/bin/env bash
# The programs on bad input and good, and the functions for C: what is printed, what is said on standard error, and the status. They are proved and built
# first.
set -u
cd "$(dirname "$0")/.." || exit 1
# build PROGRAM [ARGS..]: proves and builds it, and runs it once.
build() {
  if ! (cd crates/"$1" && rt run "${@:2}" >/dev/null 2>&1); then
    echo "programs: $1 isn't proved, built and run: see 'rt run' in crates/$1"
    echo '0 passed, 1 failed'
    exit 1
  fi
}

build board <crates/board/stdin
build verify <crates/verify/stdin
build beside -- 1 0 </dev/null
build garbage -- --help </dev/null
passed=0
failed=0
out=$(mktemp)
err=$(mktemp)
in_c=$(mktemp)
trap 'rm -f "$out" "$err" "$in_c"' EXIT

# expect NAME STATUS STDOUT STDERR: compares the last run, STDOUT byte by byte; STDERR is the one line that is said there, without the program's name,
# or 'none'.
expect() {
  if [ "$4" = none ]; then said=; else said="${1%%:*}: $4"$'\n'; fi
  if [ "$status" = "$2" ] && printf '%s' "$3" | cmp -s - "$out" && printf '%s' "$said" | cmp -s - "$err"; then
    passed=$((passed + 1))
  else
    failed=$((failed + 1))
    echo "programs: $1: status $status, printed '$(cat "$out")', said '$(cat "$err")'"
  fi
}

# run PROGRAM BYTES [ARGS..]: the bytes, as printf writes them, on standard input.
run() {
  program=$1
  bytes=$2
  shift 2
  printf "$bytes" | crates/"$program"/out/"$program" "$@" >"$out" 2>"$err"
  status=$?
}

# helps PROGRAM ARGS: of a help text the first line is compared, that the program is called with these.
helps() {
  run "$1" '' --help
  sed -i 1q "$out"
  expect "$1: help" 0 "usage: $1 $2"$'\n' none
}

# misses [WORDS..]: words that ask 'garbage' for nothing.
misses() {
  run garbage '' "$@"
  expect "garbage: bad words: $*" 1 '' 'the words are SEED COUNT, two numbers; see garbage --help'
}

two='\x00\x01\x00\x00\x02\x00'
run board ''
expect 'board: nothing said' 0 '' none
run board "$two"'\x02\x02\x00\x01\x00'
expect 'board: a link that moves' 0 $'1\n1 2\n2 1\n' none
run board "$two"'\x01\x01\x00\x01\x02\x00'
expect 'board: an empty row' 0 $'1\n1 2\n2\n\n' none
run board "$two"'\x09'
expect 'board: an unknown byte' 1 $'1\n1 2\n' 'saying 3: the byte 9 says nothing'
run board "$two"'\x02\x01\x00\x02'
expect 'board: an end inside a saying' 1 $'1\n1 2\n' 'saying 3: the input ends inside it'
run board "$two"'\x00'
expect 'board: an end after the first byte' 1 $'1\n1 2\n' 'saying 3: the input ends inside it'
three="$two"'\x00\x03\x00'
run board "$three"'\x05\x02\x03\x00\x01\x00\x02\x00\x03\x00'
expect 'board: several links' 0 $'1\n1 2\n1 2 3\n2 3 1\n' none
run board "$two"'\x05\x02\x01\x00\x02\x00\x02\x00\x01\x00'
expect 'board: several links that go round' 0 $'1\n1 2\nrefused 5: 1 2\n' none
run board "$two"'\x05\x02\x01\x00\x02\x00\x01\x00\x02\x00'
expect 'board: a link twice in several' 0 $'1\n1 2\nrefused 4\n' none
run board "$two"'\x05\x02\x01\x00\x02\x00\x02'
expect 'board: an end inside several links' 1 $'1\n1 2\n' 'saying 3: the input ends inside it'
run board "$two"'\x05\x02\x01\x00\x02\x00'
expect 'board: an end between two links' 1 $'1\n1 2\n' 'saying 3: the input ends inside it'
run board "$two"'\x05'
expect 'board: an end before the number of links' 1 $'1\n1 2\n' 'saying 3: the input ends inside it'
many=$(printf '\\x03\\x00\\x02\\x00%.0s' {1..255})
run board "$two"'\x05\x00'"$many"
expect 'board: 0 says 256 links, and one is missing' 1 $'1\n1 2\n' 'saying 3: the input ends inside it'
run board "$two"'\x05\x00'"$many"'\x01\x00\x02\x00\x00\x03\x00'
expect 'board: 0 says 256 links' 0 $'1\n1 2\nrefused 3\n1 2 3\n' none
run board "$two"'\x02\x02\x00\x01\x00\x03\x02\x00\x01\x00\x06'
expect 'board: a row made anew' 0 $'1\n1 2\n2 1\n2 1\n1 2\n' none
run board '\x06'
expect 'board: an empty row made anew' 0 $'\n' none
run board '' no-such-file
expect 'board: no file' 1 '' 'no-such-file: No such file or directory (os error 2)'
run board '' one two
expect 'board: two files' 1 '' 'more than one file; see board --help'
run board '' crates/board/stdin
expect 'board: a file' 0 "$(cat crates/board/stdout)"$'\n' none
helps board FILE

run verify '\x02\x00\x01\x00\x02\x00\x01\x00\x02\x00'
expect 'verify: kept' 0 $'kept\n' none
run verify '\x02\x00\x01\x00\x02\x00\x02\x00\x01\x00'
expect 'verify: broken' 0 $'broken 0: 2 1\n' none
run verify '\x02\x00\x01\x00\x02\x00\x02\x00'
expect 'verify: half a link' 0 $'refused 1\n' none
run verify '\x02\x00\x01'
expect 'verify: half a number' 1 '' 'the input ends inside a number'
run verify '\x02\x00\x01\x00'
expect 'verify: a card too few' 1 '' 'the input ends before all its cards have come'
run verify ''
expect 'verify: nothing at all' 1 '' 'the input ends before all its cards have come'
run verify '' no-such-file
expect 'verify: no file' 1 '' 'no-such-file: No such file or directory (os error 2)'
run verify '' one two
expect 'verify: two files' 1 '' 'more than one file; see verify --help'
helps verify FILE

run beside '' 1 300000
expect 'beside: the sayings of the gate' 0 "$(cat crates/beside/stdout)"$'\n' none
run beside ''
expect 'beside: no words' 1 '' 'a seed and a number of sayings are wanted; see beside --help'
run beside '' 1
expect 'beside: one word' 1 '' 'a seed and a number of sayings are wanted; see beside --help'
run beside '' 1 2 3
expect 'beside: three words' 1 '' 'a seed and a number of sayings are wanted; see beside --help'
run beside '' one 2
expect 'beside: a seed that is no number' 1 '' 'the seed has to be a number below 2^64; see beside --help'
run beside '' 1 -2
expect 'beside: so many sayings as there are not' 1 '' 'the number of sayings has to be a number below 2^64; see beside --help'
helps beside 'SEED COUNT'

misses
misses 1
misses 1 many
misses few 10
misses 1 -1
misses 1 10 100
misses worst 1
misses --help 1
helps garbage 'SEED COUNT'

(cd crates/keeper_c && rt lib) >/dev/null 2>&1 &&
  "${CC:-cc}" -std=c11 -Wall -Wextra -Werror -I include tests/keeper.c crates/keeper_c/out/libkeeper_c.a -o "$in_c" >"$out" 2>"$err" &&
  "$in_c" <crates/board/stdin >"$out" 2>"$err"
status=$?
expect 'keeper.c: the sayings of board' 0 "$(cat crates/board/stdout)"$'\n' none

echo "$passed passed, $failed failed"
[ "$failed" = 0 ]
