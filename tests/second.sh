#!/usr/bin/env bash
# Holds the second program, second/lineplay.py, to the answers under scripts/ and to the law of a run, and the program
# lineplay to the second program.
set -euo pipefail
root=$(cd "$(dirname "$(readlink -f "$0")")/.." && pwd)
folder=$(mktemp -d)
trap 'rm -rf "$folder"' EXIT
cd "$root"
export PYTHONDONTWRITEBYTECODE=1
passed=0
failed=0

# same WHAT FOUND WANTED: one comparison of two files.
same() {
    if cmp -s "$2" "$3"; then
        passed=$((passed + 1))
    else
        failed=$((failed + 1))
        printf 'FAILED: %s (found <, wanted >)\n' "$1"
        diff "$2" "$3" || true
    fi
}

# add COMMAND..: runs a check whose last line is 'N passed, M failed', and adds that up.
add() {
    local status=0 last
    "$@" > "$folder/log" 2>&1 < /dev/null || status=$?
    last=$(tail -n 1 "$folder/log")
    if [[ $last =~ ^([0-9]+)\ passed,\ ([0-9]+)\ failed$ ]]; then
        passed=$((passed + BASH_REMATCH[1]))
        failed=$((failed + BASH_REMATCH[2]))
        head -n -1 "$folder/log"
    else
        failed=$((failed + 1))
        printf 'FAILED: %s: status %s\n' "$*" "$status"
        cat "$folder/log"
    fi
}

# Every script gives its answers, read from standard input and as a file.
for script in scripts/*.script; do
    status=0
    python3 second/lineplay.py < "$script" > "$folder/printed" || status=$?
    python3 second/lineplay.py "$script" > "$folder/from-file" || status=$?
    echo "status $status" >> "$folder/printed"
    { cat "${script%.script}.answers"; echo 'status 0'; } > "$folder/wanted"
    same "second/lineplay.py < $script" "$folder/printed" "$folder/wanted"
    same "second/lineplay.py $script" "$folder/from-file" "${script%.script}.answers"
done

# The order of the run law, played after every line.
add python3 second/check.py order 500

# Both programs on the same scripts. The launcher is run once before, so that it can build what it starts; what it
# built is then started without it, because that is quicker. A launcher that fails is a failure and no reason to
# compare with a program that was built some time ago.
program=$root/crates/lineplay/out/lineplay
if ! ./lineplay < /dev/null > "$folder/log" 2>&1; then
    failed=$((failed + 1))
    echo 'FAILED: ./lineplay on an empty script:'
    cat "$folder/log"
else
    add python3 second/check.py compare "$program" 3000
    for script in scripts/*.script; do
        "$program" "$script" > "$folder/printed" || true
        same "lineplay $script" "$folder/printed" "${script%.script}.answers"
    done
fi

echo "$passed passed, $failed failed"
[ "$failed" -eq 0 ]
