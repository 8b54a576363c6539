#!/usr/bin/env bash
# Runs lineplay on scripts by pipe and by file: what it prints, when it prints it, and its exit status.
set -euo pipefail
source "$(dirname "$(readlink -f "$0")")/../tools/comparing"

# run WHAT STATUS PRINTED ARGUMENT..: runs the program on standard input, and compares its status and all that it prints.
run() {
    local what=$1 wanted=$2 text=$3 status=0 printed
    shift 3
    printed=$("$root/lineplay" "$@" 2>&1) || status=$?
    same "$what: status" "$status" "$wanted"
    same "$what: text" "$printed" "$text"
}

# long N: a good line with spaces behind it, N bytes in all.
long() { printf '%-*s' "$1" '(get 0)'; }

usage='usage: lineplay < SCRIPT
       lineplay FILE'
example=$root/crates/lineplay/stdin
"$root/lineplay" < /dev/null > /dev/null 2>&1 # so that a first build prints nothing below

# The worked example, by pipe and by file, with a byte 10 at its end and without; the very bytes of its answers.
run 'the example by pipe' 0 "$(cat "$root/crates/lineplay/stdout")" < "$example"
run 'the example by file' 0 "$(cat "$root/crates/lineplay/stdout")" "$example" < /dev/null
head -c -1 "$example" > unended
run 'the example with no byte 10 at its end, by pipe' 0 "$(cat "$root/crates/lineplay/stdout")" < unended
run 'the example with no byte 10 at its end, by file' 0 "$(cat "$root/crates/lineplay/stdout")" unended < /dev/null
same 'the bytes of the answers' "$("$root/lineplay" "$example" | cksum)" "$(cksum < "$root/crates/lineplay/stdout")"

# Inputs with few lines in them.
run 'an empty input' 0 '' < /dev/null
: > empty
run 'an empty file' 0 '' empty < /dev/null
run 'one empty line' 0 '(fault 22 1)' < <(printf '\n')
run 'two empty lines' 0 '(fault 22 1)
(fault 22 1)' < <(printf '\n\n')
run 'no open at all' 0 '(fault 26 1)
(fault 22 2)
(fault 22 9)' < <(printf '(get 0)\n(gett 0)\n(commit one)')

# The open: once, and it settles the rank kind.
run 'a second open, and the other rank kind' 0 '(fault 26 1)
(ok)
(fault 26 1)
(fault 22 10)
(fault 22 11)
(ok)' < <(printf '(begin 1 (due 90 7))\n(open 2 (grade))\n(open 2 (grade))\n(open 2 (due))\n(begin 1 (due 90 7))\n(begin 1 (grade 5))\n')
run 'due times: the earlier one stands above' 0 '(ok)
(ok)
(ok)
(ok)
(lost)
(ok)
(ok)' < <(printf '(open 2 (due))\n(begin 1 (due 90 7))\n(begin 2 (due 91 7))\n(lock 1 (write 0))\n(lock 2 (read 0))\n(clear 2)\n(lock 1 (write 1))\n')
run 'no elements' 0 '(ok)
(no 5)' < <(printf '(open 0 (grade))\n(bind 0 0)\n')
run 'the last of 256 elements, and none behind it' 0 '(ok)
(ok)
(no 5)
(ok)
(ok 7)' < <(printf '(open 256 (grade))\n(bind 0 255)\n(bind 1 256)\n(put 0 7)\n(get 0)\n')
run 'too many elements' 0 '(fault 22 7)' < <(printf '(open 257 (grade))\n')

# Lines of 120 and 121 bytes, and a very long one before a good one.
run 'a line of 120 bytes' 0 '(ok)
(no 2)' < <(printf '(open 1 (grade))\n'; long 120; echo)
run 'a line of 121 bytes' 0 '(ok)
(fault 21 121)' < <(printf '(open 1 (grade))\n'; long 121; echo)
run 'a line of 121 bytes with no byte 10' 0 '(fault 21 121)' < <(long 121)
run 'a line of a megabyte' 0 '(fault 21 121)
(ok)
(fault 21 121)
(no 2)' < <(long 1000000; printf '\n(open 1 (grade))\n'; long 1000000; printf '\n(get 0)\n')

# Bytes that are no text.
run 'bytes above 127, zeros and carriage returns' 0 '(fault 22 1)
(fault 22 1)
(fault 22 8)
(ok)
(no 2)' < <(printf '\377\376\n\0\n(get 0)\r\n(open 1 (grade))\n(get 0)\n')

# A line that falls into two chunks of the input.
run 'a thousand lines and more' 0 "$(printf '(ok)\n'; for _ in $(seq 2000); do printf '(no 2)\n'; done)" < <(printf '(open 1 (grade))\n'; for _ in $(seq 2000); do printf '(get 63)\n'; done)

# Files that cannot be read, and arguments that say nothing.
run 'a missing file' 1 'lineplay: cannot play none: No such file or directory (os error 2)' none < /dev/null
run 'a directory' 1 'lineplay: cannot play .: Is a directory (os error 21)' . < /dev/null
run 'two arguments' 1 "$usage" one two < /dev/null

# Answers come as the lines come: each is read before the next line is written.
mkfifo lines answers
"$root/lineplay" < lines > answers &
played=$!
exec 3> lines 4< answers
for pair in '(open 1 (grade))/(ok)' '(bind 0 0)/(ok)' '(put 0 510)/(ok)' '(get 0)/(ok 510)' 'what?/(fault 22 1)'; do
    printf '%s\n' "${pair%/*}" >&3
    answer=none
    read -r -t 10 answer <&4 || true
    same "the answer to ${pair%/*} before the next line" "$answer" "${pair#*/}"
done
printf '(get 0)' >&3
exec 3>&-
answer=none
read -r -t 10 answer <&4 || true
same 'the answer to a last line with no byte 10' "$answer" '(ok 510)'
status=0
wait "$played" || status=$?
same 'the status at the end of the input' "$status" 0
exec 4<&-

# A reader that goes away ends the program.
status=0
timeout 20 bash -c 'yes "(get 0)" | "$1" 2> /dev/null | head -n 1 > first' play "$root/lineplay" || status=$?
same 'the first answer of an endless script' "$(cat first)" '(fault 26 1)'
same 'an endless script whose answers nobody reads ends' "$status" 0

report
