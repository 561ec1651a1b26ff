#!/usr/bin/env bash
# What README.md and docs/PROTOCOL.md show of the programs is what the programs answer. The last line is 'N passed, M failed'.
set -euo pipefail
cd "$(dirname "$0")/.."
passed=0
failed=0

# same NAME SHOWN ANSWERED: one test. Something has to be shown.
same() {
    if [ -n "$2" ] && [ "$2" = "$3" ]; then
        passed=$((passed + 1))
    else
        failed=$((failed + 1))
        printf '%s shows\n%s\nand the program answers\n%s\n' "$1" "$2" "$3"
    fi
}

# rows FILE SECTION: the rows of a section's tables that show a line: the line, or (empty), what is answered, and the frame sent.
rows() {
    awk -F' *[|] *' -v section="## $2" '
        /^## / { inside = ($0 == section) }
        inside && /^[|] (`[0-9A-Za-z]+`|[(]empty[)]) [|].*`/ { print $2, $(NF - 2), $(NF - 1) }' "$1" | tr -d '`'
}

# shown PROGRAM NAME FILE SECTION: a section's lines get the answers that it shows.
shown() {
    local rows
    rows=$(rows "$3" "$4")
    same "$2" "$(awk '{ print $2; if (NF > 2) print $3 }' <<<"$rows")" "$(cut -d' ' -f1 <<<"$rows" | sed 's/^(empty)$//' | "bin/$1")"
}

shown line 'PROTOCOL.md, the line program' docs/PROTOCOL.md 'The line program'
shown bench 'PROTOCOL.md, the bench' docs/PROTOCOL.md 'The bench'

command=$(sed -n 's/^    \$ //p' docs/PROTOCOL.md)
same 'PROTOCOL.md, by hand' "$(sed -n '/^    \$ /,/^$/p' docs/PROTOCOL.md | sed -n 's/^    \([0-9]\)/\1/p')" "$(bash -c "$command")"

same 'README.md, the sample' "$(sed -n 's/^    \([0-9a-f]*\)$/\1/p' README.md)" "$(bin/line <examples/sample.in)"
story=$(rows README.md 'Run it')
same 'README.md, the lines of the story' "$(cut -d' ' -f1 <<<"$story")" "$(cat examples/story.in)"
same 'README.md, the answers of the story' "$(cut -d' ' -f2 <<<"$story")" "$(bin/bench <examples/story.in | grep '^5')"

echo "$passed passed, $failed failed"
[ "$failed" -eq 0 ]
