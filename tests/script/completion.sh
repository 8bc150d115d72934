#!/usr/bin/env bash
# Tries the completion of zelkuma's words in a bash at a terminal, which script(1) makes: TAB is pressed, and
# what the shell then runs is compared. It takes a second.
. "$(dirname "$0")/../asserts.sh"
type -P script >/dev/null || end_skipped "script isn't here"
type -P python3 >/dev/null || end_skipped "python3 isn't here, which makes the completion"
"$top/tools/help/make.py" --under "$work/laid"
: >"$work/typed"
: >"$work/wanted"

# Types a line, in which \t is TAB, and says what words the shell has to run.
types() { # LINE WORD..
    printf "%b\n" "$1" >>"$work/typed"
    shift
    printf 'GOT%s\n' "$(printf '<%s>' "$@")" >>"$work/wanted"
}

types 'zelkuma reco\tx' record x
types 'zelkuma ver\tx' verx
types 'zelkuma slice mylo\tpro\t7 8 9' slice mylog program.elf 7 8 9
types 'zelkuma list with\t' list 'with space'
types 'zelkuma replay mylog pro\tmylo\tx' replay mylog program.elf mylox
types 'zelkuma record --log\t7 --lea\tpro\tfol\t' record --log-size 7 --lean program.elf folder/
types 'zelkuma record --log-size=mylo\t --input pro\t' record --log-size=mylo --input program.elf
types 'zelkuma record --input=pro\tmylo\t' record --input=program.elf mylog
types 'zelkuma list --log\t' list --log
types 'zelkuma audit mylog pro\tmylo\t --inp\tpro\t' audit mylog program.elf mylog --input program.elf
types 'zelkuma debug mylo\tpro\tste\t' debug mylog program.elf ste
types 'zelkuma why\tmylo\tpro\t--html mylo\t' why mylog program.elf --html mylog
types 'zelkuma seeds mylo\t2 -- --log\t7 mylo\t' seeds mylo2 -- --log-size 7 mylog
types 'zelkuma export mylo\tpro\t--call\tmylo\t--row' export mylog program.elf --callgrind mylog --row
types 'zelkuma export mylo\tpro\t--perf\tmylo\t--name\tpro\t' export mylog program.elf --perfetto mylog --names program.elf
types 'zelkuma compare mylo\tmylo\tpro\t' compare mylog mylog program.elf
types 'zelkuma triage one --elf\tfol\t' triage one --elfs folder/
types 'zelkuma run pro\t-- --har\t3' run program.elf -- --harts 3
types 'zelkuma new --ba\tfol\t' new --bare folder/
types 'zelkuma demo mylo\t' demo mylo
types 'zelkuma uni\tfol\t' uninstall folder/
types 'zelkuma --ver\t' --version

what="words at a terminal"
mkdir -p "$work/files/folder"
touch "$work/files/mylog" "$work/files/program.elf" "$work/files/with space"
{
    echo 'zelkuma() { printf GOT; printf "<%s>" "$@"; echo; }'
    echo "source '$work/laid/share/bash-completion/completions/zelkuma'; cd '$work/files'"
    cat "$work/typed"
    echo exit
} | INPUTRC=/dev/null TERM=dumb script -qec "bash --norc --noprofile -i" /dev/null >"$work/out" 2>"$work/err"
grep -ao 'GOT<.*>' "$work/out" >"$work/got"
equals "$work/wanted" "$work/got"
end
