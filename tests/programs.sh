#!/usr/bin/env bash
# What bin/line and bin/bench tell where something fails, and the status that they end with. The last line is 'N passed, M failed'.
set -uo pipefail
cd "$(dirname "$0")/.." || exit 1
passed=0
failed=0
scratch=$(mktemp -d)
trap 'rm -rf "$scratch"' EXIT

# ends STATUS COMMAND [OUTPUT [SAID]]: one test. The command ends with this status, writes this output, and says this on standard error.
ends() {
    local output status said
    output=$(timeout 60 bash -c "$2" 2>"$scratch/said")
    status=$?
    said=$(cat "$scratch/said")
    if [ "$status" = "$1" ] && [ "$output" = "${3-}" ] && [ "$said" = "${4-}" ]; then
        passed=$((passed + 1))
    else
        failed=$((failed + 1))
        printf '%s\nended with %s, wrote\n%s\nand said\n%s\n' "$2" "$status" "$output" "$said"
    fi
}

# A path on which the scripts find all that they use before they build, and no rt.
mkdir "$scratch/tools"
for tool in bash basename dirname readlink awk sort cut; do
    ln -s "$(command -v "$tool")" "$scratch/tools"
done

# Each program with a line that it accepts, and the answer.
for asked in line:41:8001000000000100000000 bench:5041:508001000000000100000000; do
    IFS=: read -r name line answer <<<"$asked"
    program=bin/$name
    bin/build "$name" || exit 1 # which tells on standard error how far it is
    ends 0 "echo $line | $program" "$answer"
    ends 0 "$program </dev/null"
    ends 0 "coproc $program; echo $line >&\${COPROC[1]}; read -r -t 30 got <&\${COPROC[0]}; echo \$got" "$answer" # before the input ends

    # A write that fails. With nothing to write there is no failure.
    ends 1 "echo $line | $program >/dev/full" '' 'standard output: No space left on device'
    ends 1 "echo $line | $program >&-" '' 'standard output: Bad file descriptor'
    ends 1 "echo $line | $program >&- 2>&-"
    ends 0 "$program </dev/null >/dev/full"
    yes "$line" | head -n 9999 >"$scratch/lines"
    "$program" <"$scratch/lines" >"$scratch/answers"
    ends 1 "trap '' XFSZ; ulimit -f 100; $program <$scratch/lines >$scratch/part" '' 'standard output: File too large'
    ends 0 "head -c \$((100 * 1024)) $scratch/answers | cmp - $scratch/part" # what was answered before is there, all of it

    # A read that fails.
    ends 1 "$program </" '' 'standard input: Is a directory'
    ends 1 "$program <&-" '' 'standard input: Bad file descriptor'
    ends 1 "$program <&- >&-" '' 'standard input: Bad file descriptor'
    ends 1 "$program <&- 2>&-"

    # Nobody reads the answers any more, which is no failure: by the signal, and without it.
    ends 141 "yes $line 2>/dev/null | env --default-signal=PIPE $program | head -n 1; exit \${PIPESTATUS[1]}" "$answer"
    ends 0 "yes $line 2>/dev/null | env --ignore-signal=PIPE $program | head -n 1; exit \${PIPESTATUS[1]}" "$answer"

    # In a tree where nothing is built yet: arguments, and no rt.
    unbuilt=$scratch/$name/$program
    mkdir "$scratch/$name" && cp -a bin crates.txt "$scratch/$name"
    usage=$("$program" --help)
    [[ $usage == "usage: $program"* ]] || usage="no usage text"
    ends 0 "$unbuilt --help" "$usage"
    ends 2 "$unbuilt --version" '' "$usage"
    ends 2 "$unbuilt ''" '' "$usage"
    ends 2 "$unbuilt --help $line" '' "$usage"
    ends 1 "PATH=$scratch/tools $unbuilt </dev/null" '' "$name: not built: rt, the command of the Rattle kit, is not on the path"
done

echo "$passed passed, $failed failed"
[ "$failed" -eq 0 ]
