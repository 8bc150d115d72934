#!/usr/bin/env bash
# Tries what packaging/action.yml runs, as a CI service would: tests/script/action.sh PROGRAM
. "$(dirname "$0")/../asserts.sh"
ZELKUMA_PROGRAM=$(readlink -f "$1")
export ZELKUMA_PROGRAM
type -P python3 >/dev/null || end_skipped "python3 isn't here"

# The script of each step that has one, as one script of the service's shell.
steps() { awk '/^ +run: \|/ { on = 1; print "#"; next } on && /^        / { print substr($0, 9); next } { on = 0 }' "$top/packaging/action.yml"; }

# Runs all steps on a program, in a folder of their own.
acts() { # STATUS EXAMPLE FAIL NUMBERS OPTIONS
    rm -rf "$work/job" && mkdir "$work/job" && steps >"$work/steps"
    runs "$1" env -C "$work/job" PROGRAM="$top/examples/$2.elf" FAIL="$3" NUMBERS="$4" OPTIONS="$5" PART=1/1 GITHUB_ACTION_PATH="$top/packaging" \
        GITHUB_STEP_SUMMARY="$work/job/summary" bash --noprofile --norc -eo pipefail "$work/steps"
}

what="a crash is red, and explained"
[ "$(steps | grep -c '^#$')" -eq 3 ] || fails "the action has other steps"
acts 23 filters true "10 10" "--format 2 --harts 4 --limit 1M"
cp "$work/job/summary" "$work/out"
has out "2 logs: 1 cause, 1 ended well"
has out "### seed-10"
has out "LoadOutside"
has out "SUSPECTS"
ls "$work"/job/found/{junit.xml,table.html,seed-10.html,seed-10.short.log,seed-10.book} >/dev/null || fails "a file isn't in the artifact"
[ "$(grep -c '<failure' "$work/job/found/junit.xml")" -eq 1 ] || fails "junit.xml has no failure"

what="a crash is told, and isn't red, if so asked"
acts 0 filters false "10 10" "--format 2 --harts 4 --limit 1M"
has out "LoadOutside"

what="runs that end well are green"
acts 0 filters true "1 2" "--format 2 --harts 4 --limit 1M"
[ ! -e "$work/job/found/seed-1.html" ] || fails "a run that ended well is explained"

what="a refusal is red"
acts 2 filters true "1 2" "--format 2 --harts 99"
end
