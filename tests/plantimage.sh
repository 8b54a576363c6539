#!/usr/bin/env bash
# Runs plantimage on real files: what it prints, its exit status, and every byte that it leaves.
set -euo pipefail
source "$(dirname "$(readlink -f "$0")")/../tools/comparing"

# run STATUS PRINTED ARGUMENT..: runs the program, and compares its status and all that it prints.
run() {
    local wanted=$1 text=$2 status=0 printed
    shift 2
    printed=$("$root/plantimage" "$@" 2>&1 < /dev/null) || status=$?
    same "plantimage $*: status" "$status" "$wanted"
    same "plantimage $*: text" "$printed" "$text"
}

hold() { same "the bytes of $1" "$(od -An -v -tx1 "$1" | tr -d ' \n')" "$2"; }

usage='usage: plantimage show FILE
       plantimage set FILE ELEMENT NUMBER'
overnight=00082ee01d10016801e02ed11cfc0000fff1
"$root/plantimage" > /dev/null 2>&1 # so that a first build prints nothing below
cp "$root/examples/overnight.img" overnight.img
hold overnight.img "$overnight"

# An evening's work: look, correct the salt target, look again.
run 0 'count 8, lowest -32768, highest 32767
    0:  12000
    1:   7440
    2:    360
    3:    480
    4:  11985
    5:   7420
    6:      0
    7:    -15' show overnight.img
run 0 'element 3: 480 -> 510' set overnight.img 3 510
run 0 'count 8, lowest -32768, highest 32767
    0:  12000
    1:   7440
    2:    360
    3:    510
    4:  11985
    5:   7420
    6:      0
    7:    -15' show overnight.img
hold overnight.img 00082ee01d10016801fe2ed11cfc0000fff1
same 'what lies beside the image' "$(ls)" overnight.img

# Both limits.
run 0 'element 0: 12000 -> 32767' set overnight.img 0 32767
run 0 'element 7: -15 -> -32768' set overnight.img 7 -32768
hold overnight.img 00087fff1d10016801fe2ed11cfc00008000

# Permissions stay, and a file that cannot be written stays as it was.
chmod 640 overnight.img
run 0 'element 0: 32767 -> 1' set overnight.img 0 1
same 'the permissions' "$(stat -c %a overnight.img)" 640
cp "$root/examples/overnight.img" blocked.img
mkdir blocked.img.new
run 1 'plantimage: cannot write blocked.img: Is a directory (os error 21)' set blocked.img 0 1
hold blocked.img "$overnight"
rm -r blocked.img blocked.img.new

# Refusals leave every byte.
cp "$root/examples/overnight.img" overnight.img
run 1 'plantimage: overnight.img: refused (5): the table has no such element' set overnight.img 8 1
run 1 "plantimage: overnight.img: refused (3): the number lies outside the table's limits" set overnight.img 3 32768
run 1 "plantimage: overnight.img: refused (3): the number lies outside the table's limits" set overnight.img 3 -32769
hold overnight.img "$overnight"
printf '\0\2\0\7\0' > short.img
run 1 'plantimage: short.img: refused (20): the bytes are no plant image' show short.img
run 1 'plantimage: short.img: refused (20): the bytes are no plant image' set short.img 0 1
hold short.img 0002000700
printf '\0\0' > empty.img
run 0 'count 0, lowest -32768, highest 32767' show empty.img

# Text that is no number, files that cannot be read, arguments that say nothing.
run 1 "plantimage: 'salt' is no element number: write 0 to 65535" set overnight.img salt 1
run 1 "plantimage: '-1' is no element number: write 0 to 65535" set overnight.img -1 1
run 1 "plantimage: '5l0' is no whole number within 64 bits" set overnight.img 3 5l0
run 1 "plantimage: '' is no whole number within 64 bits" set overnight.img 3 ''
run 1 'plantimage: cannot read none.img: No such file or directory (os error 2)' show none.img
run 1 'plantimage: cannot read none.img: No such file or directory (os error 2)' set none.img 0 1
run 1 'plantimage: cannot read .: Is a directory (os error 21)' show .
run 0 "$usage" 
run 1 "plantimage: these arguments are not understood
$usage" show
run 1 "plantimage: these arguments are not understood
$usage" set overnight.img 3
hold overnight.img "$overnight"
same 'what lies in the folder' "$(ls | tr '\n' ' ')" 'empty.img overnight.img short.img '

report
