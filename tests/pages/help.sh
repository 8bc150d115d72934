#!/usr/bin/env bash
# Tries that what tells the words of zelkuma is made of tools/help and the companions as they stand, and that the program has the
# commands, options, ranges and defaults that are told there. It takes a second.
#
# tests/pages/help.sh PROGRAM
. "$(dirname "$0")/../asserts.sh"
program=$(readlink -f -- "${1:?the words are PROGRAM}")
made=(tools/help/{page.txt,each.txt,words.sh} companion/call/advice.py tools/files.txt docs/COMMANDS.md)

# A tree with the help's source, the document whose tables are made, and the files that are listed.
tree=$work/tree
mkdir -p "$tree/docs"
cp -r "$top/tools" "$top/companion" "$top/python" "$top/examples" "$tree"
cp "$top/docs/COMMANDS.md" "$tree/docs"
cp "$top/VERSION" "$tree"
type -P python3 >/dev/null || end_skipped "python3 isn't here"

# Prints a table as it is read: entry, key and text, with tabs between, and before those of an entry one of the key `entry`.
read_table() { # TABLE
    PYTHONPATH=$top/tools/help python3 -B -c '
import sys, make
for entry in make.read(sys.argv[1]):
    for key, text in [("entry", entry.name), *entry.texts]:
        print(entry.name, key, text, sep="\t")' "$1"
}

what="what is made, and what stands in the repository"
runs 0 "$tree/tools/help/make.py"
for name in "${made[@]}"; do
    equals "$top/$name" "$tree/$name"
done

what="a change of the tables, and of the version"
echo 7.8.9 >"$tree/VERSION"
printf 'frob LOG TIMES [--twice N] [--gently]\n  does frobs a log\n  range TIMES 2 to 5\n' >>"$tree/tools/help/commands.txt"
sed -i 's/^    "a crash, .*",$/    "nudges a log",/; s/\[--brief\]/[--nudge N]/; s/"--brief": "[^"]*"/"--nudge": "so gently"/' "$tree/companion/why/why.py"
touch "$tree/companion/nudge.py"
sed -i 's/^  default 100000$/  default 100001/' "$tree/tools/help/options.txt"
sed -i 's/^21 .*/21 no frob/; s/no row IC/no frob IC/; s/give a greater MAX,/give "$(more)",/' "$tree/tools/help/statuses.txt"
runs 0 "$tree/tools/help/make.py"
runs 0 "$tree/tools/help/make.py" --under "$tree"
for place in page.txt:"frobs a log" page.txt:100001 page.txt:"no frob" zelkuma.1:"Frobs a log." zelkuma.1:100001 \
    zelkuma.1:"no frob IC" zelkuma.1:"Zelkuma 7.8.9" zelkuma:"frob LOG TIMES" zelkuma:"frob --twice N" \
    words.sh:'[frob.]="LOG TIMES"' words.sh:'[frob.twice]="N"' words.sh:'[frob.gently]="flag"' words.sh:'[TIMES]="2 to 5"' \
    words.sh:'[20]="give \"\$(more)\", up to 1000000"' each.txt:"  frobs a log" files.txt:companion/nudge.py \
    page.txt:"nudges a log" page.txt:"[--nudge N]" zelkuma.1:"so gently" zelkuma:"why --nudge N" \
    "COMMANDS.md:| \`frob LOG TIMES [--twice N] [--gently]\` | frobs a log |" "COMMANDS.md:| 100001 |" "COMMANDS.md:| 21 | \`no frob IC\` |"; do
    grep -qF -- "${place#*:}" "$tree"/*/"${place%%:*}" "$tree"/*/*/"${place%%:*}" "$tree"/*/*/*/"${place%%:*}" 2>/dev/null || fails "it isn't in $place"
done

what="a table of the document that has no end"
sed -i '0,/^<!-- end of the table -->$/{/^<!-- end/d}; /^<!-- end of the table -->$/,$d' "$tree/docs/COMMANDS.md"
cp "$tree/docs/COMMANDS.md" "$work/before"
runs 1 "$tree/tools/help/make.py"
has err "a table has no end"
equals "$work/before" "$tree/docs/COMMANDS.md"

what="the page of help"
runs 0 "$top/zelkuma" help
equals "$work/out" "$top/tools/help/page.txt"
[ -z "$(awk 'length > 110' "$top/tools/help/page.txt")" ] || fails "a line has more than 110 characters"

what="what is told of one command"
while read -r command names; do
    for help in --help -h; do
        runs 0 "$top/zelkuma" "$command" $help
        has out "zelkuma $command"
        [ "$(grep -c '^zelkuma' "$work/out")" -eq 1 ] || [ "$command" = record ] || fails "other commands are told"
        [ ! -s "$work/err" ] || fails "err isn't empty"
    done
done < <(read_table commands | awk -F '\t' '$2 == "entry" { print $3 }' && printf '%s\n' build install uninstall)
runs 0 "$top/zelkuma" record --help LOG
has out "  --seed N "
runs 2 "$top/zelkuma" recor --help
has err 'bugnet: words refused'
[ -z "$(awk 'length > 100' "$top/tools/help/each.txt")" ] || fails "a line has more than 100 characters"

what="the program's commands"
cd "$work" || exit 1
while read -r command names; do
    words=()
    for name in $names; do
        case $name in
        HART | INTERVAL | IC | MAX | SEED) words+=(1) ;;
        *) words+=("no_$name") ;;
        esac
    done
    # its words are taken, and then a file is missing; a demo has none
    wanted=4
    [ "$command" != demo ] || wanted=0
    runs "$wanted" "$program" "$command" "${words[@]}"
done < <(read_table commands | awk -F '\t' '$2 == "entry" { gsub(/ \[[^]]*\]/, "", $3); print $3 }')

what="the lines of statuses, which the program holds as text"
while read -r line; do
    grep -aqF -- "$line" "$program" || fails "the program never says '$line'"
done < <(read_table statuses | awk -F '\t' '$2 == "line" && $3 ~ /^`/ { print $3 }' |
    grep -o '`[^`]*`' | tr -d '`' | sed -E 's/ ?[A-Z]{2,}.*//')

# Tries a value of an option, after whatever else has to be said for it.
takes() { # STATUS OPTION VALUE
    local more=()
    case $2 in
    --sets2) more=(--format 2 --ways2 1) ;;
    --ways2) more=(--format 2 --sets2 1) ;;
    esac
    runs "$1" "$program" record "${more[@]}" "${between[@]}" "$2" "$3" no_ELF no_LOG no_BOOK
}

# Tries both ends of a range, and what lies past them.
try_range() { # OPTION LOW HIGH TEXT
    local below=$(($2 - 1)) above=$(($3 + 1))
    case $4 in
    *"a power of two"*) below=$(($2 / 2)) above=$(($3 * 2)) && takes 2 "$1" 3 ;;
    *"a multiple of 4096"*) below=$(($2 - 4096)) above=$(($3 + 4096)) && takes 2 "$1" $(($2 + 1)) ;;
    esac
    [ "$3" != 18446744073709551615 ] || above=18446744073709551616
    takes 4 "$1" "$2"
    takes 4 "$1" "$3"
    takes 2 "$1" "$above"
    [ "$2" -eq 0 ] || takes 2 "$1" "$below"
}

what="the ranges of options"
range='([0-9]+) to ([0-9]+)'
tried=0
while IFS=$'\t' read -r entry _ text; do
    [[ $text =~ $range ]] || continue
    between=()
    try_range "${entry% N}" "${BASH_REMATCH[@]:1:2}" "$text"
    tried=$((tried + 1))
    [[ $text =~ "with \`--format 2\` "$range ]] || continue
    between=(--format 2)
    try_range "${entry% N}" "${BASH_REMATCH[@]:1:2}" "$text"
done < <(read_table options | grep -P '\trange\t')
[ "$tried" -eq 12 ] || fails "$tried ranges were tried"

what="what is without an option"
read -ra given < <(read_table options | awk -F '\t' '$2 == "default" && $3 ~ /^[0-9]+$/ { sub(/ N$/, "", $1); printf "%s %s ", $1, $3 }')
[ "${#given[@]}" -eq 18 ] || fails "it is told of other options: ${given[*]}"
runs 10 "$program" record --seed 1 "$top/examples/wild_store.elf" plain BOOK
runs 10 "$program" record --seed 1 "${given[@]}" "$top/examples/wild_store.elf" told BOOK
equals plain told

what="the manual page"
runs 0 "$top/tools/help/make.py" --under "$work/laid"
manual=$work/laid/share/man/man1/zelkuma.1
tools=0
if type -P mandoc >/dev/null; then
    tools=1
    # (it has no date, which would be that of its making)
    mandoc -T lint -W warning "$manual" | grep -v 'missing date' >"$work/out" && fails "mandoc has something to say"
fi
if type -P groff >/dev/null; then
    tools=1
    runs 0 groff -man -ww -z -Tutf8 "$manual"
    [ ! -s "$work/err" ] || fails "groff has something to say"
fi
if type -P man >/dev/null; then
    tools=1
    LC_ALL=C.UTF-8 MANWIDTH=100 runs 0 man -P cat -l "$manual"
    has out "record [OPTION..] ELF LOG BOOK"
fi
[ "$tools" -eq 1 ] || skips "whether the manual page is well formed: mandoc, groff and man aren't here"
end
