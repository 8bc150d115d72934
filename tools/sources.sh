# What the program is made from, and what that has to give: the sources, the kit, what was built and what is shipped.
# Read by tools/build.sh, tools/release.sh and tests/release.sh, which have `top`, `say` and `stop`. A call of the program
# looks at none of it.

folder=$top/crates/bugnet_main
built=$folder/out/bugnet_main
stamp=$folder/out/zelkuma.stamp
shipped=$top/release/zelkuma-x86_64-linux
shipped_stamp=$top/release/STAMP
shipped_sums=$top/release/SHA256SUMS

# the kits by which it was proved and built, now or in an earlier state
kits='rattle-kit-13f rattle-kit-13b'

# The crates that the program is made from, lowest first: NAME: LIBRARY.. : WORDS, of crates.txt.
crates() {
    awk -F: '
        function visit(name,    list, n, i) {
            if (name in seen || !(name in below)) return
            seen[name]
            n = split(below[name], list, " ")
            for (i = 1; i <= n; i++) visit(list[i])
            print name ":" below[name] ":" more[name]
        }
        { sub(/#.*/, "") }
        split($1, words, " ") { below[words[1]] = $2; more[words[1]] = $1 }
        END { visit("bugnet_main") }' "$top/crates.txt"
}

# The SHA-256 of the input.
sha256() { sha256sum | cut -d ' ' -f 1; }

# A digest of these lines and of all that stands in the crates' files.
sources() (
    cd "$top/crates" || exit
    {
        crates
        find -L $(crates | awk -F: '{ print $1 "/src", $1 "/specs", $1 "/proofs" }') -type f -print0 2>/dev/null |
            LC_ALL=C sort -z | xargs -0 sha256sum
    } | sha256
)

# The toolchain that is here, as `rt version` says it, and for which processors it is to build; a kit has the first in a
# file too, which is faster.
kit() {
    local rt id
    rt=$(command -v rt) || return
    id=$(cat "$(dirname "$(readlink -f "$rt")")/../KIT-ID" 2>/dev/null || rt version) || return
    echo "$id${cpu:+ for $cpu}"
}

# Which program a kit, or several, have built, as a stamp says it.
made() { # PROGRAM KIT..
    printf 'kit %s\n' "${@:2}"
    printf 'program %s\n' "$(sha256 <"$1")"
}

# The same with what it was made from, of the program that is built here. Times would not do: a file that was written again
# may have the same contents, and one of another branch may be old.
made_from() { # SOURCES PROGRAM KIT
    echo "sources $1"
    made "${@:2}"
}

# What a stamp says after a word.
stamped() { # STAMP WORD
    local word rest
    while read -r word rest; do
        [ "$word" != "$2" ] || echo "$rest"
    done <"$1"
}

# Whether the program that was built last is that of these sources and of the toolchain that is here.
is_fresh() { # SOURCES
    local kit
    [ -x "$built" ] && [ -f "$stamp" ] || return
    kit=$(kit) || kit=$(stamped "$stamp" kit) # no toolchain is here: what is built serves
    [ "$(made_from "$1" "$built" "$kit")" = "$(<"$stamp")" ]
}

# Whether a kit is one that the stamp of release/ names: those have to build the shipped program, byte for byte.
is_named() { # KIT
    local named
    while read -r named; do
        [[ "$1 " != "$named "* ]] || return 0
    done < <(stamped "$shipped_stamp" kit)
    return 1
}

# The line that sha256sum --check reads of the shipped program.
sum_of_shipped() { echo "$(sha256 <"$shipped")  ${shipped##*/}"; }

# Whether the shipped program is whole. If it isn't, `reason` says why.
is_shipped() {
    if [ ! -f "$shipped" ] || [ ! -f "$shipped_stamp" ] || [ ! -f "$shipped_sums" ]; then
        reason="there is no shipped program in release/"
    elif [ "$(stamped "$shipped_stamp" program)" != "$(sha256 <"$shipped")" ]; then
        reason="release/${shipped##*/} isn't the file that its stamp says"
    elif [ "$(<"$shipped_sums")" != "$(sum_of_shipped)" ]; then
        reason="release/SHA256SUMS is of another file"
    else
        return 0
    fi
    return 1
}
