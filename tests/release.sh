#!/usr/bin/env bash
# Compares the shipped program with the one that was just built from these sources: tests/release.sh.
# It fails if they differ, but for a kit that release/STAMP doesn't name: that may compile otherwise, and it is told.
# It also fails if CHANGELOG.md doesn't begin with what is unreleased, or with this version.
set -u
top=$(cd "$(dirname "$0")/.." && pwd)

name=tests/release.sh cpu=
. "$top/tools/say.sh"
. "$top/tools/sources.sh"
renew="tools/release.sh renews release/"

[ -x "$built" ] || stop 1 "there is no program ${built#"$top/"} to compare with"
reason=
is_shipped || stop 1 "$reason; $renew"
[[ $(grep -m 1 '^## ' "$top/CHANGELOG.md") == "## "@(Unreleased|"$(<"$top/VERSION"),"*) ]] ||
    stop 1 "CHANGELOG.md says nothing of version $(<"$top/VERSION")"
kit=$(kit) || stop 1 "there is no command rt here"
if cmp -s "$built" "$shipped"; then
    echo "the shipped program is the one that $kit has built, byte for byte"
elif is_named "$kit"; then
    stop 1 "the shipped program is not the one that $kit has built; $renew"
else
    echo "note: $kit has built another program than the shipped one, and release/STAMP doesn't name this kit"
fi
