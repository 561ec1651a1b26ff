#!/usr/bin/env bash
# pages.sh POWER: the program of examples/power.c makes a page only where a terminal is set up and nothing is in the page's place; whatever
# else it finds there stays as it is. The last line is 'N passed, M failed'.
set -uo pipefail
passed=0
failed=0
place=$(mktemp -d /tmp/pages-XXXXXX)
trap 'rm -rf "$place"' EXIT
cp "$1" "$place/power" && chmod 755 "$place" || exit 1
terminal=$place/terminal
user=() # who runs the program

# same NAME RIGHT FOUND: one test.
same() {
    if [ "$2" = "$3" ]; then
        passed=$((passed + 1))
    else
        failed=$((failed + 1))
        printf '%s: it should be\n%s\nand is\n%s\n' "$1" "$2" "$3"
    fi
}

# power OPTION: what the program says, and its status.
power() {
    "${user[@]}" "$place/power" "$1" "$terminal" 2>&1
    echo "status $?"
}

# there: all that is in the terminal's directory.
there() {
    [ ! -e "$terminal" ] || (cd "$terminal" && find . -mindepth 1 -printf '%P %y %s %l\n' | sort && find . -type f -exec cksum {} +)
}

# stays NAME OPTION SAID STATUS: the program says this, and leaves all as it is.
stays() {
    local before
    before=$(there)
    same "$1, $2" "$3"$'\n'"status $4" "$(power "$2")"
    same "$1, what is there after $2" "$before" "$(there)"
}

# refused NAME WHY: the terminal is neither started nor set up.
refused() {
    stays "$1" --start "power: $2" 1
    stays "$1" --set-up "power: $2" 1
}

# restarts NAME NUMBER: what is there is a page, and nothing else makes one.
restarts() {
    stays "$1" --start "closed, with the number $2" 0
    stays "$1" --set-up "closed, with the number $2" 0
}

# instead COMMAND..: a terminal's directory with nothing in it but what the command makes there.
instead() {
    rm -rf "$terminal"
    mkdir "$terminal" && (cd "$terminal" && "$@")
}

# page USED ALL: a page's file with so many bytes 00, and FF up to so many in all.
page() {
    { head -c "$1" /dev/zero && head -c $(($2 - $1)) /dev/zero | tr '\0' '\377'; } >dock.page
}

no_page='it has no page: it was never set up, or its page is lost'

refused 'no directory' 'its directory cannot be opened'
instead true
stays 'a new terminal' --start "power: $no_page" 1
same 'a new terminal, --set-up' $'closed, with the number 0\nstatus 0' "$(power --set-up)"
made=$(there)
instead page 0 4096
same 'its page' "$(there)" "$made"
restarts 'a new page' 0
instead page 3 4096
restarts 'a used page' 48
instead page 4096 4096
restarts 'a page that is used up' 65536

instead page 0 100
mv "$terminal/dock.page" "$terminal/dock.new"
stays 'a page that was not finished' --start "power: $no_page" 1
same 'a page that was not finished, --set-up' $'closed, with the number 0\nstatus 0' "$(power --set-up)"
same 'it is finished' "$made" "$(there)"

instead mkdir dock.page
refused 'a directory' 'its page cannot be opened'
instead ln -s dock.page dock.page
refused 'a link to itself' 'its page cannot be opened'
instead ln -s disk/dock.page dock.page
refused 'a link to a disk that is not there' "$no_page"
instead page 0 0
refused 'an empty file' 'its page cannot be read'
instead page 3 4095
refused 'a short file' 'its page cannot be read'
instead page 4 4096
printf '\377' | dd of="$terminal/dock.page" bs=1 seek=1 conv=notrunc status=none
refused 'a damaged page' 'its page is damaged'

# Nothing is forbidden to root, who tries it as somebody else.
instead page 3 4096
chmod 000 "$terminal/dock.page"
if [ "$(id -u)" -eq 0 ]; then
    chown 65534 "$terminal"
    user=(setpriv --reuid=65534 --regid=65534 --clear-groups)
fi
refused 'a page without permission' 'its page cannot be opened'

echo "$passed passed, $failed failed"
[ "$failed" -eq 0 ]
