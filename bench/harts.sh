# What bench/harts.elf reads. Read by the scripts that record it.

# Prints of each hart how often it goes around, how many loops it does before each access, and how many bytes its words lie
# apart from those of the hart before it: a word each.
harts_input() { # HARTS TIMES LOOPS APART
    local hart number
    for hart in $(seq "$1"); do
        for number in "${@:2}"; do
            # shellcheck disable=SC2059 # these are its bytes
            printf "$(printf '\\x%02x' $((number & 255)) $((number >> 8 & 255)) $((number >> 16 & 255)) $((number >> 24)))"
        done
    done
}
