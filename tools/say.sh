# What the scripts have to say: a line on err, after the name of the script.

say() { echo "${name:-zelkuma}: $*" >&2; }

stop() { # STATUS TEXT
    say "$2"
    exit "$1"
}
