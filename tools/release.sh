#!/usr/bin/env bash
# Ships the program that was built from these sources, by `./zelkuma build` or by the gate: release/ gets a copy of it
# and a stamp that says what it was made from: tools/release.sh [KIT ..]
#
# The stamp names the kit that is here, and then each KIT, which gave the same bytes elsewhere. With one that it names the
# gate fails if other bytes are built (tests/release.sh). In CHANGELOG.md what is unreleased becomes that of VERSION, the
# first time that a program of this version is shipped.
set -u
top=$(cd "$(dirname "$0")/.." && pwd)

name=tools/release.sh cpu=
. "$top/tools/say.sh"
. "$top/tools/sources.sh"

# The gate leaves no stamp, so after it the times tell whether a file has changed since.
is_of_these_sources() { # SOURCES
    is_fresh "$1" && return
    # (one that was built for other processors isn't shipped)
    [[ ! -f $stamp || $(stamped "$stamp" program) != "$(sha256 <"$built")" || $(stamped "$stamp" kit) != *" for "* ]] || return
    shopt -s nullglob
    [ -z "$(find "$top/crates.txt" "$top"/crates/*/{src,specs,proofs} -type f -newer "$built" -print -quit)" ]
}

# Gives what CHANGELOG.md tells as unreleased the version and the day.
name_changes() {
    local version
    version=$(<"$top/VERSION")
    grep -q "^## $version," "$top/CHANGELOG.md" ||
        sed -i "s/^## Unreleased\$/## $version, $(date -u +%F)/" "$top/CHANGELOG.md"
}

for other; do
    [[ " $kits " == *" $other "* ]] || stop 2 "it takes the names of other known kits, and not '$other': $kits"
done
[ -x "$built" ] || stop 1 "there is no program ${built#"$top/"}: './zelkuma build' makes it"
kit=$(kit) || stop 1 "there is no command rt here, so it isn't known by which kit the program was built"
is_of_these_sources "$(sources)" || stop 1 "the sources have changed since the program was built: './zelkuma build' renews it"
"$built" check "$folder/data/example.log" >&2 || stop 1 "the program that was built doesn't check $folder/data/example.log"
mkdir -p "$top/release" &&
    install -m 755 -- "$built" "$shipped" &&
    made "$shipped" "$kit" "$@" >"$shipped_stamp" &&
    sum_of_shipped >"$shipped_sums" || stop 3 "release/ can't be written"
name_changes || stop 3 "CHANGELOG.md can't be written"
cat "$shipped_stamp"
