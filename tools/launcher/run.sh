# Runs the program, and gives advice after it if it refuses or fails. What the program prints and its status stay its own. Read by the script zelkuma, which has set `top` and `program`.

. "$top/tools/launcher/words.sh"

# Sets `head` to the first bytes of a file; each NUL stands there as the end of a line.
read_head() { # FILE [COUNT]
    local LC_ALL=C byte
    head=
    [ -f "$1" ] || return 0
    while [ ${#head} -lt "${2:-20}" ] && IFS= read -r -d '' -n 1 byte; do
        head+=${byte:-$'\n'}
    done <"$1"
} 2>/dev/null

# Becomes the program, with the words of the call. A call in the background would hear neither Ctrl-C nor Ctrl-\. And
# if this script is killed by a signal that can't be passed on, the program is too; a busybox (there setpriv is a link)
# has no option for it.
become_program() { # WORD..
    trap - INT QUIT
    ! hash setpriv 2>/dev/null || [ -L "${BASH_CMDS[setpriv]}" ] || exec setpriv --pdeathsig KILL "$program" "$@"
    exec "$program" "$@"
}

# Passes a signal on to the program.
pass_on() { # SIGNAL
    caught=$1
    [ -z "$child" ] || kill -s "$1" "$child" 2>/dev/null
}

# Starts the program with the input, out and err of this script; sets `child`.
start_program() { # WORD..
    local input=0
    { : <&0; } 2>/dev/null || input=- # it is closed
    become_program "$@" <&"$input" &
    child=$!
}

# Waits for the program, also if a signal comes meanwhile; sets `status`.
await_program() {
    local passed=
    while caught=''; wait "$child"; status=$?; [ -n "$caught" ]; do
        passed=$caught
    done
    # bash may forget the status of a child that ends while a trap is run: then it says -1 or 127
    [[ -z $passed ]] || ((status >= 0 && status != 127)) || status=$((128 + $(kill -l "$passed")))
}

# What is done however the call ends. bash ends with 254, and outside of all functions, if it can start no process; it may not
# have said so.
held=()
end_run() { # STATUS
    [ ${#held[@]} -eq 0 ] || rm -f -- "${held[@]}"
    [ "$1" -ne 254 ] || stop 1 "no process can be started: see 'ulimit -u'"
}

run() { # WORD..
    local words=("$@") wanted=() unsaved=() child='' shower='' caught='' signal status
    trap 'end_run $?' EXIT
    if [[ $1 == @(record|convert|salvage) ]]; then
        . "$top/tools/launcher/targets.sh"
        read_words
        [ -n "$complaint" ] || { check_schedule && check_targets && list_unsaved; }
    fi
    # nobody reads advice there, and nothing is to be done after it
    [[ ! /dev/fd/2 -ef /dev/null || ${#wanted[@]} -gt 0 ]] || exec "$program" "${words[@]}"
    for signal in HUP INT QUIT TERM USR1 USR2 ALRM; do
        # shellcheck disable=SC2064 # it is this signal
        trap "pass_on $signal" "$signal"
    done
    # a terminal waits for what may take long: a recording, or a replay into a file
    if [[ -t 2 && ${TERM:-dumb} != dumb && ($1 == record || ($1 == @(replay|joint) && -f /dev/fd/1)) ]] && hash cat 2>/dev/null; then
        . "$top/tools/launcher/progress.sh"
        start_shown "${words[@]}"
    else
        start_program "${words[@]}"
    fi
    [ -z "$caught" ] || pass_on "$caught"
    # what bash itself says of a child that a signal has killed is not for the reader
    exec {err}>&2 2>/dev/null
    await_program
    [ -z "$shower" ] || wait "$shower"
    [[ $status -le 128 || ${#wanted[@]} -eq 0 ]] || remove_unsaved
    # whatever becomes of the advice (nobody may read err any more), the status is the program's; with format 2 a log has
    # the end of its run
    [[ $status -eq 0 || ($status == 1[01] && ${values[format]-} == 2) ]] ||
        (. "$top/tools/launcher/advice.sh" && advise "$status")
    if [ "$status" -gt 128 ]; then
        # ends as a program ends that a signal has killed
        signal=$((status - 128))
        ulimit -c 0
        trap - "$signal"
        kill -s "$signal" $$
    fi
    exit "$status"
}
