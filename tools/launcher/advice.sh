# What to do after a status of the program, in one line. Read by run.sh, whose `err` is the true one.

advise_that() { echo "zelkuma: $*" >&"$err"; }

# Sets `line` to what the program says first of words that it refuses before it saves anything.
ask_again() { # WORD..
    line=
    IFS= read -r line < <("$program" "$@" 2>&1 >/dev/null </dev/null)
    line=${line#bugnet: }
}

# Words that are refused are refused again: nothing else decides it.
advise_on_words() {
    local last=$((${#wanted[@]} - 1)) line word
    if [ -n "$complaint" ]; then
        advise_that "$complaint; 'zelkuma help' lists commands and options"
        return
    elif ((last > 0)) && [ "${names[last]}" = "${names[last - 1]}" ]; then
        advise_that "${wanted[last - 1]} and ${wanted[last]} have one name"
        return
    fi
    ask_again "${words[@]}"
    read -r _ word _ <<<"$line"
    if [[ $line == "setting "* && -n ${ranges[--$word]-} ]]; then
        advise_that "the range of --$word is ${ranges[--$word]}; ${values[$word]-nothing} was given"
    elif [[ $line == ZELKUMA_SCHEDULE* ]]; then
        advise_that "ZELKUMA_SCHEDULE is bursts:NUMBER, sleeper:NUMBER or book:FILE"
    else
        advise_that "a word isn't UTF-8"
    fi
}

# Why a file is refused is asked again of a run that saves nothing, or of a command that only reads.
advise_on_elf() {
    local elf=${names[0]} line asked=("${words[@]}") memory=${values[memory]+--memory=${values[memory]}}
    if [ "${words[0]}" = record ]; then
        asked=(record --lean --seed=1 --limit=1 ${memory:+"$memory"} -- "$elf" /dev/null /dev/null)
    else
        elf=${names[1]}
    fi
    [[ ! -f $elf || (${words[0]} != record && ! -f ${names[0]}) ]] || ask_again "${asked[@]}"
    advise_of_kind "$elf" "elf: NotRv32"
}

# What is said in `line` of a file, or else that which is said mostly.
advise_of_kind() { # FILE ELSE
    local first second
    read -r first second _ <<<"${line-}"
    advise_that "${1@Q}: ${kinds[$first $second]-${kinds[$2]}}"
}

advise_on_log() {
    local log=${names[0]} line
    read_head "$log"
    case $head in
    $'\x7fELF'*) advise_that "${log@Q} is an ELF file, and LOG was wanted there: ${words[0]} takes ${wanted[*]}" ;;
    $'\x1f\x8b'*) advise_that "${log@Q} is compressed: gunzip it first" ;;
    *)
        [ ! -f "$log" ] || ask_again check -- "$log"
        advise_of_kind "$log" "log: BadMagic"
        ;;
    esac
}

# Which intervals of a hart LOG holds, or else which harts; of an interval its counts.
advise_on_interval() { # STATUS
    local hart number start end reason first='' last='' harts='' counts='' lines=0
    while read -r hart number start end reason _ && ((++lines < 100000)); do
        [[ " $harts " == *" $hart "* ]] || harts+=" $hart"
        [[ $hart -eq $((10#${names[2]#+})) ]] || continue
        first=${first:-$number} last=$number
        [[ $reason == [A-Z]* ]] || end=$((end - 1))
        [[ $number -ne $((10#${names[3]#+})) ]] || counts="the counts $start to $end"
    done < <([ ! -f "${names[0]}" ] || "$program" list "${names[0]}")
    if [[ $1 -eq 21 && -n $counts ]]; then
        advise_that "interval ${names[3]} of hart ${names[2]} has $counts"
    elif [ -n "$first" ]; then
        advise_that "of hart ${names[2]} LOG holds the intervals $first to $last; ${advice[14]}"
    else
        advise_that "LOG holds intervals of the harts$harts; ${advice[14]}"
    fi
}

# Says if the log of a run that ended in a fault (10) or at the limit (11) is of no use. At a terminal it says of any crash
# in format 1 that format 2 always keeps it.
advise_on_recording() { # STATUS
    local lost="the interval of the fault" reason
    [ -f "${names[1]}" ] || return 0
    [ "$1" -eq 10 ] || lost="any interval"
    while read -r _ _ _ _ reason _; do
        [[ $1 -eq 10 && $reason != [A-Z]* ]] && continue
        [[ $1 -ne 10 || ! -t $err ]] || advise_that "note: LOG holds the crash; with --format 2 it always does"
        return 0
    done < <("$program" list "${names[1]}")
    advise_that "note: LOG doesn't hold $lost; recorded with --format 2 it does"
}

advise() { # STATUS
    [ -n "${wanted+read}" ] || read_words
    case $1 in
    2) advise_on_words ;;
    6) advise_on_elf ;;
    7) advise_on_log ;;
    14 | 21) advise_on_interval "$1" ;;
    10 | 11) advise_on_recording "$1" ;;
    1 | 126 | 127 | 132) advise_that "${program@Q} can't run here: it is for Linux on x86-64-v2 with glibc 2.34 or later; see 'zelkuma build --help'" ;;
    *) [ -z "${advice[$1]-}" ] || advise_that "${advice[$1]}" ;;
    esac
}
