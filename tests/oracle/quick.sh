#!/usr/bin/env bash
# What companions say of the kept programs, beside the oracle: tests/oracle/quick.sh [PROGRAM]. It takes two to three processor
# seconds a program. Others are drawn by `python3 -m tests.oracle`.
cd "$(dirname "$0")/../.." || exit 1
type -P python3 >/dev/null || { echo "skipped: python3 isn't here" && exit 77; }
exec python3 -B -m tests.oracle --case all --recordings 0 --program "${1:-$PWD/release/zelkuma-x86_64-linux}"
