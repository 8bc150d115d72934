# Proves and builds the program: the word build of the script zelkuma, which has set `top`.
#
# It calls the compiler itself, and not `rt lib`, since that locks the folders of the crates below: in one tree two of its
# calls would wait for each other. It also has each library keep its statements alone, which those above it read faster.

. "$top/tools/sources.sh"

# How many crates to prove side by side: one a processor. A proof takes up to some 3 GB.
lanes() {
    {
        nproc
        awk '/^MemAvailable:/ { print int($2 / 3000000) }' /proc/meminfo
        # a container's limit, which is a number or `max`
        awk '$1 > 0 { print int($1 / 3000000000) }' /sys/fs/cgroup/memory.max 2>/dev/null
    } | sort -n | awk 'NR == 1 { print $1 < 1 ? 1 : $1 }'
}

# For each crate the lines of code from it up to the program, along the longest way. The longest chain of crates
# determines how long the first call takes, and not how much there is to prove.
measure_chains() {
    local place name it
    for ((place = ${#order[@]} - 1; place >= 0; place--)); do
        name=${order[place]}
        chain[$name]=$((${chain[$name]-0} + $(cat "$top/crates/$name"/src/*.rt | wc -l)))
        for it in ${below[$name]}; do
            [[ ! -v below[$it] || ${chain[$it]-0} -ge ${chain[$name]} ]] || chain[$it]=${chain[$name]}
        done
    done
}

# The crates that have not ended, but all that they stand on has, those with the longest chains first: they are being
# proved, or are next.
coming() {
    local name it
    for name in "${!below[@]}"; do
        [[ ! -v ended[$name] ]] || continue
        for it in ${below[$name]}; do
            [[ -v below[$it] && ! -v ended[$it] ]] && continue 2
        done
        echo "${chain[$name]} $name"
    done | sort -k 1,1rn -k 2 | cut -d ' ' -f 2
}

# Says that a crate has ended.
ends() { # CRATE
    local next
    ended[$1]=1
    next=$(coming | sort | tr '\n' ' ')
    say "${#ended[@]} of ${#below[@]}, $1${next:+; now or next: ${next% }}"
}

# The crates that a crate stands on, by whatever way.
all_below() { # CRATE
    local place it
    local -A needed=([$1]=1)
    for ((place = ${#order[@]} - 1; place >= 0; place--)); do
        [[ -v needed[${order[place]}] ]] || continue
        [ "${order[place]}" = "$1" ] || echo "${order[place]}"
        for it in ${below[${order[place]}]}; do needed[$it]=1; done
    done
}

# The folder of a crate's library, of its digest, and of what the compiler said of it.
library() { echo "$top/crates/$1/out/library"; } # CRATE

# A digest of all that a crate's library is made from: the toolchain, its files, and the libraries that it stands on, of
# which `format` has a digest. So a change that leaves a library as it was, as one of a proof does, ends with its crate.
digest_of() { # CRATE
    local it
    {
        echo "${kit% for *}: ${below[$1]}"
        for it in $(all_below "$1"); do
            cat "$(library "$it")/$it.rlib/format"
        done
        cd "$top/crates/$1" && find src specs proofs -type f -print0 2>/dev/null | LC_ALL=C sort -z | xargs -0 sha256sum
    } | sha256
}

# Starts the compiler, or what else makes something of a crate, in the crate's folder. A signal to its group ends it, and
# the processes that it made.
start() { # CRATE COMMAND..
    local folder
    folder=$(library "$1")
    mkdir -p "$folder" || stop 3 "$1 can't be proved: there can be no folder $folder"
    (cd "$top/crates/$1" && exec setsid "${@:2}" </dev/null >"$folder/said" 2>&1) &
    proving[$!]=$1
}

# Starts the compiler on a crate, with the words by which it finds the libraries that the crate stands on.
compile() { # CRATE WORD..
    local words it
    words=(--crate-name "$1" --links "$1=" --extern "std=$kit_top/rlibs/std.rlib" -L "dependency=$kit_top/rlibs"
        --antt-project "$kit_top/rattle/logic/antt-project.json" --logic-built "$kit_top/logic_built")
    for it in ${below[$1]}; do
        if [[ -v below[$it] ]]; then
            words+=(--extern "$it=$(library "$it")/$it.rlib")
        else
            words+=(--extern "$it=$kit_top/rlibs/$it.rlib")
        fi
    done
    for it in $(all_below "$1"); do
        words+=(-L "dependency=$(library "$it")")
    done
    start "$1" "$kit_top/bin/rattle" build "${@:2}" "${words[@]}"
}

# Waits until one of what was started ends, and sets `crate`. The status is 0 if all is well. The last lines of a failure
# are shown, but not those of what was proved.
await() {
    local process status
    wait -n -p process "${!proving[@]}"
    status=$?
    if [ -z "${process-}" ]; then
        # (bash 5.2 doesn't tell here of one that had ended before)
        for process in "${!proving[@]}"; do
            kill -0 "$process" 2>/dev/null || break
        done
        wait "$process"
        status=$?
    fi
    crate=${proving[$process]}
    unset "proving[$process]"
    [ "$status" -eq 0 ] && return
    grep -vE ': proved|modules loaded=' "$(library "$crate")/said" | tail -n 40 >&2
    failed+=("$crate")
    return 1
}

# Takes the libraries that are there and need no proof. The status is 0 if there is one.
take_kept() { # CRATE..
    local it kept=1
    for it in "$@"; do
        [[ $it != bugnet_main && " ${proving[*]} " != *" $it "* && ! -v digest[$it] ]] || continue
        digest[$it]=$(digest_of "$it")
        [ "$(cat "$(library "$it")/digest" 2>/dev/null)" = "${digest[$it]}" ] || continue
        ends "$it"
        kept=0
    done
    return $kept
}

# Proves the libraries that the program stands on, as many side by side as there are lanes. Those with the longest chains
# come first. If fewer can be proved than there are lanes, they share these. If one fails, those that were begun still
# end.
prove() {
    local next place it jobs crate
    while :; do
        mapfile -t next < <(coming)
        ! take_kept "${next[@]}" || continue
        for place in "${!next[@]}"; do
            it=${next[place]}
            [[ $it != bugnet_main && " ${proving[*]} " != *" $it "* ]] || continue
            [[ ${#failed[@]} -eq 0 && ${#proving[@]} -lt $ZELKUMA_LANES ]] || break
            jobs=$((ZELKUMA_LANES / ${#next[@]} + (place < ZELKUMA_LANES % ${#next[@]})))
            rm -rf "$(library "$it")"
            compile "$it" src/lib.rt --jobs $((jobs > 0 ? jobs : 1)) --statements -o "$(library "$it")/$it.rlib"
        done
        [ ${#proving[@]} -gt 0 ] || break
        await || continue
        # (not if a file changed meanwhile: nothing tells which text was proved)
        [ "$(digest_of "$crate")" != "${digest[$crate]}" ] || echo "${digest[$crate]}" >"$(library "$crate")/digest"
        ends "$crate"
    done
}

# Builds the program over its libraries. That it checks an example's log tells that it was built.
build_program() {
    local crate
    compile bugnet_main src/main.rt --jobs "$ZELKUMA_LANES" ${cpu:+"--cpu=$cpu"} --toolchain "$kit_top/toolchain" --backend llvm -o "$built.o" &&
        await &&
        start bugnet_main "$kit_top/bin/rattle-link" --target x86_64-unknown-linux-gnu --toolchain "$kit_top/toolchain" -o "$built" "$built.o" \
            "$kit_top/c/libos_c.a" "$kit_top/c/liblibc_c.a" &&
        await &&
        start bugnet_main "$built" check data/example.log &&
        await &&
        ends bugnet_main
}

# Has `rt` prove and build all, crate after crate, where the toolchain isn't laid out as is known here.
build_by_rt() {
    local crate
    start bugnet_main rt run --jobs "$ZELKUMA_LANES" ${cpu:+"--cpu=$cpu"} -- check data/example.log
    await
}

# Whether the toolchain has all that is called here.
is_known() {
    local name
    for name in bin/rattle bin/rattle-link rlibs logic_built rattle/logic/antt-project.json toolchain c/libos_c.a c/liblibc_c.a; do
        [ -e "$kit_top/$name" ] || return
    done
    "$kit_top/bin/rattle" build --help | grep -q -e --statements
}

build() {
    local kit kit_top sources name on order=() proving=() failed=()
    local -A below ended chain digest
    kit=$(kit) || stop 1 "there is no command rt of a Rattle kit here, which proves and builds the program: put the folder bin of ${kits/ / or } on PATH, or bring the program from where it is built"
    # another kit is reported and tried, not refused
    [[ " $kits " == *" ${kit%% *} "* ]] ||
        say "note: rt is of ${kit%% *}; if a proof fails, put the folder bin of ${kits/ / or } first on PATH"
    kit_top=$(dirname "$(dirname "$(readlink -f "$(type -P rt)")")")
    while IFS=: read -r name on _; do
        below[$name]=$on
        order+=("$name")
    done < <(crates)
    measure_chains
    # from here on what is there is of no known sources, until all is built
    rm -f "$stamp"
    sources=$(sources)
    trap 'for name in "${!proving[@]}"; do kill -- "-$name" "$name"; done 2>/dev/null; wait; name=; stop 130 "stopped; the crates that are done stay proved"' INT TERM HUP
    say "proving and building the program, ${#below[@]} crates, up to ${ZELKUMA_LANES:=$(lanes)} at a time; release/README.md says how long that takes from nothing"
    if is_known; then
        prove
        [ ${#failed[@]} -gt 0 ] || build_program
    else
        say "note: this kit isn't laid out as is known here, so its rt proves crate after crate"
        build_by_rt
    fi
    [ ${#failed[@]} -eq 0 ] || stop 1 "the program was not built; not proved: ${failed[*]}"
    [ "$(sources)" = "$sources" ] || stop 1 "the sources changed while they were proved: call it again"
    trap - INT TERM HUP
    made_from "$sources" "$built" "$kit" >"$stamp"
}

# Says whether the program that was built is the shipped one.
compare_with_shipped() {
    if [ -n "$cpu" ]; then
        say "it was built for $cpu, and isn't the shipped program"
    elif [ ! -f "$shipped" ]; then
        say "there is no shipped program in release/ to compare with"
    elif cmp -s "$built" "$shipped"; then
        say "what was built is the shipped program, byte for byte"
    else
        say "what was built is not the shipped program; release/STAMP says what that was made from"
    fi
}

# Proves and builds unless what is there is of these sources, and says where the program is.
build_here() { # [--cpu NAME]
    local cpu=${2-} cpus="x86-64 x86-64-v2 x86-64-v3"
    # (the toolchain has these names, and would say so only once all is proved)
    [[ $# -eq 0 || ($# -eq 2 && $1 == --cpu && $2 != *" "* && " $cpus " == *" $2 "*) ]] ||
        stop 2 "build takes no word, or --cpu NAME, where NAME is one of: $cpus"
    # one builds at a time; the lock ends with the call, and with the toolchain that it started
    exec 9<"$top/crates"
    flock -n 9 || { say "waiting for another call to build the program" && flock 9; }
    is_fresh "$(sources)" || build
    exec 9<&-
    compare_with_shipped
    echo "$built"
}
