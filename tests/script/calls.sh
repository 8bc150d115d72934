#!/usr/bin/env bash
# Tries that the script zelkuma hands on the words, files, signals and status of a call as they are, and what it shows at
# a terminal: tests/script/calls.sh. It takes some ten seconds, and needs no toolchain. The program here is a script. Of the system
# the script zelkuma has bash, stat and readlink alone.
. "$(dirname "$0")/small_tree.sh"
only bash stat readlink

cat >"$shipped" <<'END'
#!/usr/bin/env bash
PATH=$SYSTEM
case $1 in
list) sed 1d "$2" && exit ;;
joint) cat && exit 12 ;;
check) exit ;;
esac
[ -z "${SAVES-}" ] || { sleep 100 3>.zelkuma-save-of-another & echo $! >another && exec 3>.zelkuma-save-begun; }
echo "began $$" >>"$RT_CALLS"
[ -z "${SLEEPS-}" ] || exec sleep "$SLEEPS"
[ -z "${UNTIL-}" ] || until [ -e "$UNTIL" ]; do sleep 0.05; done
[ -z "${KILLED-}" ] || kill -s "$KILLED" $$
[ -z "${WAITS-}" ] || sleep "$WAITS"
[ "$1" != record ] || printf "BUGNETLG\n${INTERVALS-}" >"${@: -2:1}"
printf '<%s>' "$@"
echo
echo "a line of err" >&2
exit "${STATUS:-0}"
END
chmod +x "$shipped"
export SYSTEM=$without
began='until grep -q ^began "$RT_CALLS"; do sleep 0.05; done'

err_is_terminal

what="words and statuses"
export STATUS
for STATUS in 0 3 4 12 18; do
    runs "$STATUS" "$zelkuma" slice "a LOG" '' '*' '$x' --=
    [ "$(cat "$work/out")" = '<slice><a LOG><><*><$x><--=>' ] || fails "the words aren't those of the call"
    [ "$(cat "$work/err")" = "a line of err" ] || fails "there is more on err"
done
for STATUS in 2 5 6 7 8 9 13 14 15 16 17 19 20 21; do
    runs "$STATUS" "$zelkuma" races LOG ELF 9
    [ "$(sed -n 1p "$work/err")" = "a line of err" ] || fails "the program's line isn't the first one"
    [ "$(sed 1d "$work/err" | grep -c '^zelkuma: ')" -eq 1 ] && [ "$(wc -l <"$work/err")" -eq 2 ] ||
        fails "there isn't one line of advice"
done
STATUS=20 runs 20 bash -c '"$0" races LOG ELF 9 2>&-' "$zelkuma"
STATUS=

what="the input"
printf 'a\0b' | "$zelkuma" joint LOG ELF >"$work/out" 2>"$work/err"
[ "${PIPESTATUS[1]}" -eq 12 ] || fails "status ${PIPESTATUS[1]}"
cmp -s "$work/out" <(printf 'a\0b') || fails "the program had another input"

what="the log of a fault or of a limit"
export INTERVALS
INTERVALS='0 0 0 9 call 00000009\n1 0 0 9 stopped 00000000\n'
STATUS=10 runs 10 "$zelkuma" record ELF LOG BOOK
has err "^zelkuma: note: LOG doesn't hold the interval of the fault; recorded with --format 2 it does"
STATUS=11 runs 11 "$zelkuma" record ELF LOG BOOK
hasnt err zelkuma
STATUS=10 runs 10 "$zelkuma" record --format=2 ELF LOG BOOK
hasnt err zelkuma
INTERVALS='0 0 0 9 call 00000009\n1 0 0 9 LoadOutside 00000000\n'
STATUS=10 runs 10 "$zelkuma" record ELF LOG BOOK
has err "^zelkuma: note: LOG holds the crash; with --format 2 it always does"
INTERVALS=
STATUS=11 runs 11 "$zelkuma" record ELF LOG BOOK
has err "^zelkuma: note: LOG doesn't hold any interval; recorded with --format 2 it does"
STATUS=11 runs 11 "$zelkuma" record ELF /dev/null BOOK
hasnt err zelkuma

# Runs a call in the background, sends it a signal once the program has begun, and says so if the program stays.
signals() { # SIGNAL WORD..
    # (a call in the background would not hear INT, but for -m)
    "${at_terminal[@]}" bash -c "set -m; \"\${@:2}\" & $began; kill -s \$1 \$!; wait \$!; status=\$?
        for try in {1..400}; do
            grep -q '^State:.[^Z]' /proc/\$(sed -n 's/^began //p' \"\$RT_CALLS\")/status || exit \$status
            sleep 0.05
        done
        echo alive
        exit \$status" bash "$@"
}

what="signals"
at_terminal=("${terminal[@]}") terminal=()
export SLEEPS=100
for signal in HUP INT QUIT TERM USR1 ALRM; do
    runs $((128 + $(kill -l "$signal"))) signals "$signal" "$zelkuma" list2 LOG
    hasnt out alive
    hasnt err zelkuma
done
cp "$(type -P setpriv)" "$work/few" # (a link isn't taken: it may be a busybox)
runs 137 signals KILL "$zelkuma" list2 LOG
hasnt out alive
rm "$work/few/setpriv"

what="a save that a signal ends"
only bash stat readlink rm
export SAVES=yes
touch .zelkuma-save-of-old
for signal in HUP INT TERM; do
    for err in "$work/err" /dev/null; do
        runs $((128 + $(kill -l "$signal"))) signals "$signal" bash -c 'exec "$0" record ELF LOG BOOK 2>"$1"' "$zelkuma" "$err"
        [ "$(echo .zelkuma-save-*)" = ".zelkuma-save-of-another .zelkuma-save-of-old" ] || fails "there are $(echo .zelkuma-save-*)"
        kill "$(<another)"
    done
done
rm .zelkuma-save-of-*
only bash stat readlink
SAVES='' SLEEPS=
terminal=("${at_terminal[@]}")
for signal in SEGV ABRT KILL; do
    KILLED=$signal runs $((128 + $(kill -l "$signal"))) bash -c '"$0" list2 LOG; exit $?' "$zelkuma"
    hasnt err "^zelkuma: "
    hasnt err tools/launcher # where bash tells of a child that was killed
done

terminal=()
what="nobody who reads advice"
runs 0 bash -c '"$0" list2 LOG 2>/dev/null & wait $!; grep -qx "began $!" "$RT_CALLS"' "$zelkuma"

if ! type -P python3 >/dev/null; then
    skips "what a terminal shows: python3 isn't here"
    ends
fi

# Runs words at a terminal, in the background; what it showed is in the file NAME.
at_terminal() { # NAME WORD..
    bash "$top/tests/fresh_start.sh" "$top/tests/script/terminal.py" "${@:2}" >"$work/$1" 2>&1
    echo "status $?" >>"$work/$1"
}
shows() { # NAME PATTERN
    cp "$work/$1" "$work/out"
    : >"$work/err"
    [[ $(<"$work/$1") =~ ^$2$ ]] || fails "the terminal shows something else: $1"
}
only bash stat readlink cat
answer='<record><ELF><LOG><BOOK>\\r'$'\n''a line of err\\r'$'\n''status 0'
answer_of_replay='a line of err\\r'$'\n''status 0'
line='\\r\\e\[Kzelkuma: [0-9]+ s, [0-9]+ MB of memory; Ctrl-C stops it'
clear='\\r\\e\[K'
# (a run that has to be shown lasts until it is, and one that isn't to be shown lasts longer than it takes to show one)
export WAITS=3.5
: >"$calls"
at_terminal long --touch-at " s, " seen_long env UNTIL=seen_long WAITS= "$zelkuma" record ELF LOG BOOK &
at_terminal stopped --stop-at " s, " env SLEEPS=100 WAITS= "$zelkuma" record ELF LOG BOOK &
at_terminal no_terminal bash -c '"$0" record ELF LOG BOOK 2>/dev/null' "$zelkuma" &
at_terminal err_in_file bash -c '"$0" record ELF LOG BOOK 2>err_in_file' "$zelkuma" &
at_terminal dumb env TERM=dumb "$zelkuma" record ELF LOG BOOK &
at_terminal behind bash -c 'set -m; "$0" record ELF LOG BOOK & wait $!' "$zelkuma" &
at_terminal file --touch-at " s, " seen_file env UNTIL=seen_file WAITS= bash -c '"$0" replay LOG ELF 0 0 >rows' "$zelkuma" &
at_terminal crash env STATUS=10 WAITS= INTERVALS='0 0 0 9 LoadOutside 00000000\n' "$zelkuma" record ELF crash.log BOOK &
at_terminal kept env STATUS=10 WAITS= INTERVALS='0 0 0 9 LoadOutside 00000000\n' "$zelkuma" record --format=2 ELF kept.log BOOK &
at_terminal pipe bash -c 'set -o pipefail; "$0" replay LOG ELF 0 0 | cat' "$zelkuma" &
wait
SECONDS=0
WAITS='' at_terminal short "$zelkuma" record ELF LOG BOOK
late=
[ "$SECONDS" -lt 2 ] || late="(($line, and nothing is saved\\\\r)+$clear)?" # on a machine with other work

what="a terminal"
shows short "$late$answer"
shows long "($line, and nothing is saved\\\\r)+$clear$answer"
# (on a machine with other work the program ends some time after the key)
shows stopped "($line, and nothing is saved\\\\r)+\\^C($line, and nothing is saved\\\\r)*$clear"$'\n''?status 130'
shows no_terminal '<record><ELF><LOG><BOOK>\\r'$'\n''status 0'
shows err_in_file '<record><ELF><LOG><BOOK>\\r'$'\n''status 0'
shows dumb "$answer"
shows behind '<record><ELF><LOG><BOOK>\\r'$'\n''a line of err\\r'$'\n''.*status 0'
! grep -q memory "$work/behind" || fails "it shows a line in the background"
shows file "($line\\\\r)+$clear$answer_of_replay"
[ "$(cat rows)" = "<replay><LOG><ELF><0><0>" ] || fails "the rows are others"
shows crash '.*a line of err\\r'$'\n''zelkuma: note: LOG holds the crash; with --format 2 it always does\\r'$'\n''status 10'
shows kept '.*a line of err\\r'$'\n''status 10'
shows pipe '.*status 0'
! grep -q memory "$work/pipe" || fails "it shows a line beside a pipe"

ends
