# The word doctor of the script zelkuma, and what tests/quick.sh knows of tools: both have set `top`.

# Whether one of these commands or files is here.
has_any() { # NAME..
    local name
    for name; do
        if [[ $name == /* ]]; then [ ! -e "$name" ] || return 0; else ! type -P "$name" >/dev/null || return 0; fi
    done
    return 1
}

# Sets `packages` to those that are missing, and prints each tool: what for, and whether it is here. Without `tests` those of tests
# are passed over.
# shellcheck disable=SC2120 # tests/quick.sh gives it
find_missing() { # [tests]
    local use package names
    packages=()
    while IFS='|' read -r use package names; do
        [[ $use != '#'* && ($use != tests:* || ${1-} == tests) && -n $names ]] || continue
        # shellcheck disable=SC2086 # they are parted at their spaces
        if has_any $names; then
            printf 'here     %-30s %s\n' "${names%% *}" "$use"
        else
            printf 'missing  %-30s %s\n' "${names%% *}" "$use"
            [[ " ${packages[*]} " == *" $package "* ]] || packages+=("$package")
        fi
    done <"$top/tools/tools.txt"
}

# What is here, what each missing tool would add, and the line that installs all of them. The status is 1 if the program can't run.
tell_health() {
    local packages status=0
    [ $# -eq 0 ] || stop 2 "doctor takes no words"
    if "$program" demo 1 >/dev/null 2>&1; then
        echo "here     the program: $program"
    else
        echo "missing  the program can't run here: $program; it is for Linux on x86-64-v2 with glibc 2.34 or later" && status=1
    fi
    find_missing
    [ ${#packages[@]} -eq 0 ] && echo "nothing is missing" || echo "apt-get install -y ${packages[*]}"
    return "$status"
}
