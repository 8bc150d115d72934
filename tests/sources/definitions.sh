#!/usr/bin/env bash
# Tries that the page that tools/definitions.py prints has each definition of crates/*/specs, and follows a change of a
# comment, of a definition, of a file and of the crates. None may lack a comment. It takes a second, and no program.
#
# tests/sources/definitions.sh
. "$(dirname "$0")/../asserts.sh"
export LC_ALL=C.UTF-8

type -P python3 >/dev/null || end_skipped "python3 isn't here"

# A tree with all that the page is made of: crates.txt, and of each crate its specs and the head of its source.
tree=$work/tree
page=$work/out
mkdir "$tree"
cp "$top/crates.txt" "$tree"
cd "$top" || exit 1
cp -r --parents crates/*/specs crates/*/src/{lib,main}.rt "$tree"

# Makes the tree's page, and looks for a line of it.
shows() { # LINE
    runs 0 "$top/tools/definitions.py" "$tree"
    grep -qxF -- "$1" "$page" || fails "the page has no line '$1'"
}

what="definitions that the page leaves out"
runs 0 "$top/tools/definitions.py" "$tree"
sed -nE 's/^((abbrev|unfoldable) )?pub ((record|data) )?([^ :(]+).*/\5/p' "$tree"/crates/*/specs/*.antt |
    grep -vxE 'mod|use' | sort -u >"$work/defined"
grep -oE '`[^`]+`' "$page" | tr -d '`' | sort -u >"$work/listed"
[ -s "$work/defined" ] || fails "there are no definitions"
missing=$(comm -23 "$work/defined" "$work/listed" | head -n 3)
[ -z "$missing" ] || fails "the page hasn't $missing"

what="a comment that changes"
specs=$tree/crates/bn_base/specs
sed -i 's/^-- the address after a part$/-- the address behind_a_part, where 1 < 2/' "$specs/Programs.antt"
shows '- `end_of`: the address behind_a_part, where 1 < 2.'

what="a comment that goes"
sed -i '/^-- the address behind_a_part/d' "$specs/Programs.antt"
runs 1 "$top/tools/definitions.py" "$tree"
says "crates/bn_base/specs/Programs.antt: without a comment: end_of"
sed -i 's/^.*pub end_of/-- an end\n&/' "$specs/Programs.antt"

what="a definition that comes"
printf '\n-- how many\n-- there are\nabbrev pub frobs : ℕ\nfrobs = 2\n' >>"$specs/Programs.antt"
shows '- `frobs`: how many there are.'

what="a file that comes"
printf -- '-- Frobs.\nuse Rattle.std.specs.Prelude.{ℕ}\n\n-- a frob\npub data Frob : Type 0 where\n' >"$specs/Frobs.antt"
printf 'pub mod Frobs\n' >>"$specs/Lib.antt"
shows '**[Frobs](crates/bn_base/specs/Frobs.antt).** Frobs.'
shows '- `Frob`: a frob.'

what="crates in another order"
sed -i '/^bn_base:/d; s/^# base:.*/# above: what comes first\nfrob_base: bn_base/' "$tree/crates.txt"
cp -r "$tree/crates/bn_base" "$tree/crates/frob_base"
shows '## Above: what comes first'
[ "$(grep -n -m 1 '^### ' "$page" | cut -d: -f2)" = "### frob_base" ] || fails "frob_base isn't the first crate"
! grep -qx '### bn_base' "$page" || fails "a crate that crates.txt doesn't list is there"
end
