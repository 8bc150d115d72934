# A small tree with the script zelkuma, and a toolchain that only seems to prove and build, for the tests of the script.
# Read by these; each sets `what` to what it tries next.
. "$(dirname "$0")/../asserts.sh"
tree="$work/a tree" # with a space in its name
calls=$work/calls
export RT_CALLS=$calls TMPDIR=$work/temporary

# What the script may need of the system, and nothing else: so no other rt is found.
mkdir -p "$work/system" "$work/kit/bin" "$TMPDIR" "$tree"
for name in awk bash basename cat chmod cmp cp cut date dirname env find flock grep install ln mkdir nproc od readlink rm \
    sed setsid sh sha256sum sleep sort stat tail touch tr wc xargs; do
    ln -s "$(type -P "$name")" "$work/system/$name"
done
without=$work/system
path=$work/kit/bin:$without

# A compiler that isn't the known one makes rt build all.
cat >"$work/kit/bin/rt" <<'END'
#!/usr/bin/env bash
echo "$*" >>"$RT_CALLS"
case $1 in
version) cat "$(dirname "$0")/../named" ;;
run) mkdir -p out && cp "$(dirname "$0")/../program" out/bugnet_main && out/bugnet_main check data/example.log ;;
esac
END

# A library is its text, and is there only if those are that it stands on.
cat >"$work/kit/bin/rattle" <<'END'
#!/usr/bin/env bash
text() { find "${1-.}/src" -type f -exec cat {} +; } # [FOLDER]
cpu= libraries=()
while [ $# -gt 0 ]; do
    case $1 in
    --help) echo "--statements" && exit ;;
    --crate-name) crate=$2 ;;
    --jobs) jobs=$2 ;;
    --cpu=*) cpu=" for ${1#--cpu=}" ;;
    --extern) libraries+=("$2") ;;
    -o) to=$2 ;;
    esac
    shift
done
echo "process $$" >>"$RT_CALLS"
echo "proves $crate$cpu, $jobs jobs" >>"$RT_CALLS"
for it in "${libraries[@]}"; do
    [[ $it != *=*/a\ tree/* || $(cat "${it#*=}/format") == "$(text "../${it%%=*}")" ]] || { echo "error: ${it%%=*} isn't built" && exit 1; }
done
sleep "${RT_SLEEP:-0}"
while [ -e "${RT_HOLD:-/nowhere}" ]; do sleep 0.05; done
echo "fn $crate::quiet: proved"
text | grep -q wrong && echo "fn $crate::loud: not proved" && exit 1
if [ "$crate" = bugnet_main ]; then
    { cat "$(dirname "$0")/../program" && echo "# $(text ../low; text ../mid; text ../bugnet; text)$cpu" | tr '\n' ' '; } >"$to"
else
    mkdir "$to" && text >"$to/format"
fi
END

cat >"$work/kit/bin/rattle-link" <<'END'
#!/usr/bin/env bash
while [ "$1" != -o ]; do shift; done
cp "$3" "$2" && chmod +x "$2"
END

cat >"$work/kit/program" <<'END'
#!/usr/bin/env bash
[ "$1" = check ] && exit 0
echo "ran $*" >>"$RT_CALLS"
echo "words: $*"
exit 4
END
chmod +x "$work/kit/program" "$work/kit/bin/"*
echo "rattle-kit-13f logic 0" >"$work/kit/named"
mkdir -p "$work/kit/"{rlibs,logic_built,toolchain,c,rattle/logic}
touch "$work/kit/c/"lib{os,libc}_c.a "$work/kit/rattle/logic/antt-project.json"

mkdir "$tree/tests" "$tree/release"
cp -r "$top/"{zelkuma,VERSION,tools,packaging} "$tree"
mkdir "$tree/examples" && cp -r "$top/examples/"{bare,lib,picolibc} "$tree/examples"
echo '$Format:%H$' >"$tree/release/COMMIT" # as in a checkout; an exported tree has the commit there
printf '# Changes\n\n## Unreleased\n\nA change.\n' >"$tree/CHANGELOG.md"
cp "$top/tests/release.sh" "$tree/tests"
cat >"$tree/crates.txt" <<'END'
# a comment
low: clap
side:
mid: low
bugnet: mid low side
apart: low # which the program doesn't stand on
bugnet_main: bugnet
END
for name in low side mid bugnet apart bugnet_main; do
    mkdir -p "$tree/crates/$name/src"
    echo "$name as it was" >"$tree/crates/$name/src/lib.rt"
done
cd "$work" || exit 1

has() { grep -q -- "$2" "$work/$1" || fails "no '$2' in $1"; }
hasnt() { ! grep -q -- "$2" "$work/$1" || fails "'$2' in $1"; }
# From here on err of what runs is a terminal.
err_is_terminal() {
    local python
    python=$(python3 -c 'import sys; print(sys.executable)' 2>/dev/null) || end_skipped "python3 isn't here, and err can be no terminal"
    terminal=("$python" -I -S "$top/tests/script/terminal.py" --err "$work/err")
}

# Calls the script with these commands of the system alone; sets `zelkuma`.
only() { # NAME..
    local name
    rm -rf "$work/few"
    mkdir "$work/few"
    for name; do
        ln -s "$(type -P "$name")" "$work/few/$name"
    done
    printf '#!%s\nPATH=%q exec %q "$@"\n' "$(type -P bash)" "$work/few" "$tree/zelkuma" >"$work/call"
    chmod +x "$work/call"
    zelkuma=$work/call
}
builds() { grep -q "^proves bugnet_main" "$calls" || fails "nothing was built"; }
builds_nothing() { ! grep -qvE '^(version|ran .*)$' "$calls" || fails "it called the toolchain: $(cat "$calls")"; }
answers() { [ "$(cat "$work/out")" = "words: $*" ] || fails "out isn't that of the program"; }
zelkuma=$tree/zelkuma
shipped=$tree/release/zelkuma-x86_64-linux
source=$tree/crates/mid/src/lib.rt

# Ends a test.
ends() {
    what="files that stay"
    [ -z "$(find "$TMPDIR" -mindepth 1)" ] || fails "$(find "$TMPDIR" -mindepth 1)"
    end
}
