# What scripts of tests share: top is the folder of all, and work one of their own. A script sets what, the point that it tries.
set -u
top=$(cd "$(dirname "${BASH_SOURCE[0]}")/.." && pwd)
work=$(mktemp -d)
trap 'rm -rf "$work"' EXIT
failures=0

# Says what went wrong, with what the words wrote that ran last.
fails() { # TEXT
    echo "${0##*/}: $what: $1" >&2
    sed 's/^/    /' "$work/out" "$work/err" >&2 2>/dev/null
    failures=$((failures + 1))
}

# Runs words, and tries the status that they end with. What they write is in out and err. If path is set, it is their
# PATH, and if calls is, that file is emptied first. `terminal` can have words that make err a terminal.
runs() { # STATUS WORD..
    local wanted=$1 status=0
    shift
    [ -z "${calls-}" ] || : >"$calls"
    PATH=${path-$PATH} ${terminal[@]+"${terminal[@]}"} "$@" >"$work/out" 2>"$work/err" </dev/null || status=$?
    [ "$status" -eq "$wanted" ] || fails "status $status of '$*', and not $wanted"
}

has() { grep -qF -- "$2" "$work/$1" || fails "no '$2' in $1"; } # FILE TEXT
equals() { cmp -s -- "$1" "$2" || fails "$1 and $2 differ: $(diff "$1" "$2" | head -n 5)"; } # FILE FILE
says() { [ "$(<"$work/err")" = "$(printf '%s\n' "$@")" ] || fails "err isn't: $*"; } # LINE..
skips() { echo "skipped: $1"; } # TEXT

# Ends a script that can try nothing here.
end_skipped() { # TEXT
    skips "$1"
    exit 77
}

# Ends the script.
end() {
    [ "$failures" -eq 0 ] && echo "${0##*/}: all is well"
    exit $((failures > 0))
}
