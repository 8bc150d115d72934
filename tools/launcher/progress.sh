# Shows on the terminal what a long run is at. Read by run.sh. The program writes to the terminal through a pipe, so that
# the line is gone before the first byte of it is shown: a recording writes only when it is over.

# Whether this process may write to the terminal now: it may have been put into the background.
is_in_front() {
    local line group front
    read -r line <"/proc/$BASHPID/stat" || return
    # after the name: state, parent, group, session, terminal, the group in front
    read -r _ _ group _ _ front _ <<<"${line##*) }"
    [ "$group" = "$front" ]
}

# The memory that a process takes; sets `memory`, in MB.
measure_memory() { # PROCESS
    local key value
    memory=0
    while read -r key value _; do
        [ "$key" != VmRSS: ] || memory=$((value / 1024))
    done <"/proc/$1/status"
} 2>/dev/null

# Reads first the program's process, by a line; hands on what comes after it, and until then shows a line each second,
# from the third on. A NUL that comes first isn't handed on, which no terminal shows.
show_progress() { # WHAT
    local process memory byte='' wait=2 began=$SECONDS shown=
    trap '' INT
    LC_ALL=C
    IFS= read -r process
    # (the byte may come in the moment in which the time is over)
    while IFS= read -r -d '' -t "$wait" -N 1 byte; [[ $? -gt 128 && -z $byte ]]; do
        wait=1
        is_in_front || continue
        measure_memory "$process"
        printf '\r\e[Kzelkuma: %s s, %s MB of memory; %s\r' $((SECONDS - began)) "$memory" "$1"
        shown=1
    done
    [ -z "$shown" ] || printf '\r\e[K'
    printf %s "$byte"
    exec cat
} >&2

# Starts the program as start_program does, with its err, and its out if that is the same terminal, in the pipe.
start_shown() { # WORD..
    local what="Ctrl-C stops it" pipe
    [ "$1" != record ] || what="Ctrl-C stops it, and nothing is saved"
    exec {pipe}> >(show_progress "$what")
    shower=$!
    {
        echo "$BASHPID" >&"$pipe"
        [ ! /dev/fd/1 -ef /dev/fd/2 ] || exec 1>&"$pipe"
        exec 2>&"$pipe" {pipe}>&-
        become_program "$@"
    } <&0 &
    child=$!
    exec {pipe}>&-
}
