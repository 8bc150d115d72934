#!/usr/bin/env bash
# Tries an own program from nothing: `zelkuma new`, sources of one's own in the place of its, `make`, `zelkuma run`; from the
# sources and installed. tests/script/own_program.sh PROGRAM
. "$(dirname "$0")/../asserts.sh"
ZELKUMA_PROGRAM=$(readlink -f "$1")
export ZELKUMA_PROGRAM
mkdir "$work/installed"
"$top/zelkuma" install "$work/installed" >/dev/null || exit 1
has_picolibc=$(ls -d /usr/lib/picolibc/riscv64-unknown-elf 2>/dev/null)

cat >"$work/list.h" <<'END'
int sum_of(const int *list, int length);
END
cat >"$work/list.c" <<'END'
#include "list.h"
int sum_of(const int *list, int length) { return length ? *list + sum_of(list + 1, length - 1) : 0; }
END
cat >"$work/own.c" <<'END'
#include <stdio.h>
#include <stdlib.h>
#include "list.h"
int main(void) { int *list = calloc(3, sizeof *list); list[1] = 40; list[2] = 2; printf("sum %d\n", sum_of(list, 3)); return 7; }
END
cat >"$work/own_bare.c" <<'END'
#include "machine.h"
#include "list.h"
int main(void) { int list[] = {40, 2}; char text[9]; put_number(text, sum_of(list, 2)); write_all(STREAM_OUT, text, 2); return 9; }
END

# The starter's own program, and then one's own in its place.
tries() { # ZELKUMA FOLDER TEXT OWN-SOURCE OWN-TEXT STATUS OPTION..
    local zelkuma=$1 folder=$work/$2
    what="new ${*:7} by $zelkuma"
    runs 0 "$zelkuma" new "${@:7}" "$folder"
    has out "make -C '$folder' && zelkuma run "
    [[ -n $has_picolibc || ${7-} == --bare ]] && type -P riscv64-unknown-elf-gcc make >/dev/null || { skips "$what: its compiler or its library isn't here" && return; }
    runs 0 make -s -C "$folder"
    runs 0 "$zelkuma" run "$folder/program.elf"
    has out "$3"
    rm "$folder"/{hello,main}.c 2>/dev/null
    cp "$work/$4" "$work"/list.[ch] "$folder"
    runs 0 make -s -C "$folder"
    runs "$6" "$zelkuma" run "$folder/program.elf"
    has out "$5"
    has err "No hart faulted"
}

tries "$top/zelkuma" hosted "4 squared is 16" own.c "sum 42" 7
tries "$top/zelkuma" bare 1000 own_bare.c 42 9 --bare
tries "$work/installed/bin/zelkuma" hosted_installed "too large: yes" own.c "sum 42" 7
tries "$work/installed/bin/zelkuma" bare_installed 1000 own_bare.c 42 9 --bare

what="what new refuses"
mkdir "$work/full" "$work/empty" && echo mine >"$work/full/main.c"
runs 2 "$top/zelkuma" new "$work/full"
has err "isn't an empty folder"
[ "$(cat "$work"/full/*)" = mine ] || fails "it has changed the folder"
runs 0 "$top/zelkuma" new "$work/empty"
runs 3 "$top/zelkuma" new "$work/none/below"
for words in "" "a b" "--bear a" "--bare"; do
    # shellcheck disable=SC2086 # they are words
    runs 2 "$top/zelkuma" new $words
done

what="which packages are missing"
mkdir "$work/few"
for tool in mkdir cp ls; do
    ln -s "$(type -P "$tool")" "$work/few"
done
path=$work/few runs 0 /bin/bash "$top/zelkuma" new --bare "$work/poor"
has out "apt-get install -y make gcc-riscv64-unknown-elf"
end
