# Reads `words`, the words of a call, as the program does, so far as the script has to know them. read_words sets
# - wanted     the names that the command takes
# - names      the words that are no options, in their order
# - values     the value of each option that is given
# - complaint  why the program refuses the words, if that can be seen here
# What a command takes is told by tools/help/words.sh.
declare -A values=()

complain() { complaint=${complaint:-$1}; }

# Whether a number isn't greater than another; neither has a zero before it.
is_most() { [[ ${#1} -lt ${#2} || (${#1} -eq ${#2} && ! $1 > $2) ]]; } # NUMBER NUMBER

# Whether a word is a number in a range as the program takes it.
is_number() { # WORD LOW HIGH
    [[ $1 =~ ^\+?0*([0-9]+)$ ]] && is_most "$2" "${BASH_REMATCH[1]}" && is_most "${BASH_REMATCH[1]}" "$3"
}

# Whether a word is another but for one slip: a letter more, less or other, two that changed places, an end left out.
is_near() { # WORD RIGHT
    local word=$1 right=$2
    [[ ${#word} -lt 3 || $right != "$word"?* ]] || return 0
    while [[ -n $word && ${word:0:1} == "${right:0:1}" ]]; do word=${word:1} right=${right:1}; done
    while [[ -n $word && -n $right && ${word: -1} == "${right: -1}" ]]; do word=${word%?} right=${right%?}; done
    [[ ${#word}${#right} == [01][01] || (${#word} -eq 2 && $right == "${word:1}${word:0:1}") ]]
}

# Sets `near` to what may have been meant by a command, or by an option of a command.
find_near() { # WORD [COMMAND]
    local candidate
    near=
    # shellcheck disable=SC2086 # they are parted at their spaces
    for candidate in "${!takes[@]}" ${companions//[[:space:]]/.. }build. new. doctor. install. uninstall. help.; do
        candidate=${candidate%%..}
        [[ ${2-} == "${candidate%%.*}" || (-z ${2-} && $candidate != *.?*) ]] || continue
        candidate=${candidate#"${2-}"}
        ! is_near "$1" "${candidate//./}" || near+=" or ${2:+--}${candidate//./}"
    done
    near=${near:+"; did you mean${near# or}?"}
}

# A number with K, M or G after it (1024 times, each), or 0x before it, in decimal; sets `decimal`. A word that is none,
# and one that is too large, stay as they are. companion/call/options.py reads them alike: tests/script/numbers.txt.
to_decimal() { # WORD
    local digits K=10 M=20 G=30
    decimal=$1
    [[ $1 == *[!0-9]* ]] || return 0
    if [[ $1 =~ ^0x0*([0-9a-fA-F]{1,16})$ ]]; then
        printf -v decimal %u "0x${BASH_REMATCH[1]}"
    elif [[ $1 =~ ^0*([0-9]{1,18})([KMG])$ ]]; then
        digits=${BASH_REMATCH[1]}
        ((digits >> 64 - BASH_REMATCH[2])) || printf -v decimal %u "$((digits << BASH_REMATCH[2]))"
    fi
}

# Reads an option, whose word is words[at]; sets `at` to its last word. A number is written out in `words`.
read_option() { # COMMAND
    local option=${words[at]#--} name kind head='' decimal
    name=${option%%=*}
    kind=${takes[$1.$name]-}
    if [[ ${words[at]} != --* || -z $name || -z $kind ]]; then
        find_near "$name" "$1"
        complain "$1 has no option ${words[at]@Q}$near"
        return
    fi
    [ -z "${values[$name]+given}" ] || complain "--$name is given twice"
    values[$name]=
    if [ "$kind" = flag ]; then
        [[ $option != *=* ]] || complain "--$name takes no value"
        return
    elif [[ $option == *=* ]]; then
        head=--$name=
    elif ((at + 1 < ${#words[@]})) && [[ ${words[at + 1]} != -?* ]]; then
        at=$((at + 1))
    elif [[ $kind == N && ${words[at + 1]-} == -[0-9]* ]]; then
        complain "--$name takes a number from 0 to 18446744073709551615, and not ${words[at + 1]@Q}"
        return
    else
        complain "--$name has no value"
        return
    fi
    values[$name]=${words[at]#"$head"}
    [ "$kind" = N ] || return 0
    to_decimal "${values[$name]}"
    is_number "$decimal" 0 18446744073709551615 ||
        complain "--$name takes a number from 0 to 18446744073709551615, and not ${values[$name]@Q}"
    words[at]=$head$decimal values[$name]=$decimal
}

# Compares the names that are given with those that the command takes.
read_names() { # COMMAND
    local place range
    if ((${#names[@]} > ${#wanted[@]})); then
        complain "the word ${names[${#wanted[@]}]@Q} is too many: $1 takes ${wanted[*]}$([ "$1" != record ] || echo "; a program has no arguments, and reads what --input names")"
    elif ((${#names[@]} < ${#wanted[@]})); then
        complain "${wanted[${#names[@]}]} is missing: $1 takes ${wanted[*]}"
    fi
    for place in "${!names[@]}"; do
        range=${ranges[${wanted[place]-none}]-}
        [ -z "$range" ] || is_number "${names[place]}" "${range% to *}" "${range#* to }" ||
            complain "${wanted[place]} is a number from $range, and not ${names[place]@Q}"
    done
}

read_words() {
    local at only_names=
    # shellcheck disable=SC2206 # it is parted at its spaces
    names=() wanted=(${takes[${words[0]}.]-}) complaint='' values=()
    if [ ${#wanted[@]} -eq 0 ]; then
        [[ ${words[0]} != @(-v|-V|version) ]] || complain "'zelkuma --version' tells the version"
        [[ ${words[0]} != -* ]] || complain "the command comes first, and its options behind it"
        find_near "${words[0]}"
        complain "there is no command ${words[0]@Q}$near"
        return
    fi
    for ((at = 1; at < ${#words[@]}; at++)); do
        case $only_names${words[at]} in
        --) only_names=name: ;;
        -?*) read_option "${words[0]}" ;;
        *) names+=("${words[at]}") ;;
        esac
    done
    read_names "${words[0]}"
}
