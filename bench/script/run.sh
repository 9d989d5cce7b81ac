#!/bin/bash
# Runs the built program on scripts of 2^30 bytes and of a byte more. One is a single line of more than 8 MiB, which is answered
# LineTooLong where the script ends with it, and not at all where the script goes on: the status is then 7. The other has 1,024
# lines of 2^20 bytes, the last of which ends at byte 2^30: a line feed after it is no line, and all 1,024 lines are answered.
# Takes seconds, and a few MiB of memory, which is printed. Then talks to the program line by line. Build the program first:
# cd crates/relay_run && rt run -- run 10 data/schema.graphql data/q.graphql < stdin
set -eu
here=$(cd "$(dirname "$0")" && pwd)
program=${1:-$here/../../crates/relay_run/out/relay_run}
folder=$(mktemp -d)
trap 'rm -rf "$folder"' EXIT
printf 'type Query{me:Int}' > "$folder/schema.graphql"
printf 'query Q{me}' > "$folder/q.graphql"

# The name of a script that comes on standard input, the expected status, and the sum of the expected output.
run() {
    local status=0
    /usr/bin/time -f %M -o "$folder/memory" "$program" run 1 "$folder/schema.graphql" "$folder/q.graphql" > "$folder/out" || status=$?
    if [ "$status" != "$2" ] || [ "$(md5sum < "$folder/out")" != "$3" ]; then
        echo "$1: status $status, not $2, or other output"
        exit 1
    fi
    echo "$1: status $status, as expected; at most $(tail -1 "$folder/memory") KiB of memory"
}

one_line() { head -c "$1" /dev/zero | tr '\0' x; }

lines() {
    head -c 1048575 /dev/zero | tr '\0' x > "$folder/line"
    echo >> "$folder/line"
    for _ in $(seq 1024); do cat "$folder/line"; done
}

refusals() { for n in $(seq "$2"); do echo "{\"code\":$3,\"error\":\"$1\",\"n\":$n}"; done; }

one_line 1073741824 | run 'one line of 2^30 bytes' 1 "$(refusals LineTooLong 1 4 | md5sum)"
one_line 1073741825 | run 'one line of 2^30 bytes and one' 7 "$(md5sum < /dev/null)"
lines | run '1,024 lines of 2^20 bytes' 1 "$(refusals NotJson 1024 1 | md5sum)"
(lines; echo) | run '1,024 lines of 2^20 bytes, and a line feed' 7 "$(refusals NotJson 1024 1 | md5sum)"
"$here/talk.py" "$program"
