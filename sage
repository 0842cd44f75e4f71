#!/bin/sh
# Runs the program `sage` with the words as given, from the folder that the user is in. Builds it
# first where a source is newer than it.

root=$(CDPATH='' cd -- "$(dirname -- "$0")" && pwd) || exit 1
program=$root/crates/sage_main/out/sage_main

newer_sources() {
    find "$root/crates" "$root/crates.txt" -name out -prune -o -type f \
        \( -name '*.rt' -o -name '*.antt' -o -name crates.txt \) -newer "$program" -print
}

if [ ! -x "$program" ] || [ -n "$(newer_sources)" ]; then
    echo 'sage: building; the first build proves all that it stands on, which takes 30 to 50 minutes of a processor' >&2
    (cd "$root/crates/sage_main" && rt run -- --version) >&2 || exit 1
    touch "$program"
fi

exec "$program" "$@"
