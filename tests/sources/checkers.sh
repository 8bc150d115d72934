#!/usr/bin/env bash
# Tries what shellcheck says of the scripts, and mypy, flake8 and pylint of what is in Python, and that tests begin free of what
# the caller has set: tests/sources/checkers.sh
. "$(dirname "$0")/../asserts.sh"
cd "$top" || exit 1

what="a fresh start"
told='umask; echo "<$*>$LANG${!LC_@}${TMPDIR-}"; [[ -d $HOME && $PATH == *:/usr/sbin:* ]] && grep SigIgn /proc/self/status'
runs 0 env LC_ALL=C TMPDIR=/nowhere HOME=/nowhere PATH=/usr/bin:/bin bash -c 'trap "" HUP INT QUIT && umask 077 && exec bash "$@"' \
    bash tests/fresh_start.sh bash -c "$told" bash "a b" ''
equals <(printf '%s\n' 0022 "<a b >C.UTF-8" $'SigIgn:\t0000000000000000') "$work/out"

what="the scripts by shellcheck"
if type -P shellcheck >/dev/null; then
    mapfile -t scripts < <(grep -lE '^#!.*(bash|sh)$' zelkuma .ci/run {bench,examples,packaging,tests,tests/*,tests/companions/*,tools}/*.sh)
    [ "${#scripts[@]}" -gt 30 ] || fails "there are ${#scripts[@]} scripts"
    runs 0 shellcheck -x --severity=warning "${scripts[@]}"
else
    skips "the scripts: shellcheck isn't here"
fi

# Tools and tests in Python. What a test gets has no types of its own, so what may be None there isn't asked of.
what="types of tools and tests, by mypy"
if type -P mypy >/dev/null; then
    runs 0 mypy --python-version 3.8 --cache-dir "$work/mypy" tools/*.py tools/help/make.py
    MYPYPATH=bench:tests/companions/lib:tests/companions/memory:tests/companions/why:tests/companions/memory:tests/hostile:tests/crashes:tests/sanitizers:tools:. runs 0 mypy --python-version 3.8 \
        --cache-dir "$work/mypy" --explicit-package-bases --check-untyped-defs --no-strict-optional --disable-error-code var-annotated \
        --disable-error-code misc --disable-error-code assignment {bench,tests,tests/*,tests/companions/*}/*.py
    runs 0 mypy --strict --python-version 3.8 --cache-dir "$work/mypy_oracle" --follow-imports=silent -p tests.oracle
else
    skips "types of tools and tests: mypy isn't here"
fi

# The configuration stands in pyproject.toml, from which flake8 doesn't read by itself.
what="the style of what is in Python, by flake8"
if type -P flake8 >/dev/null; then
    sed -n '/^\[tool\.flake8]$/,/^$/{s/^\[tool\./[/;s/"//g;p}' pyproject.toml >"$work/flake8"
    runs 0 flake8 --config "$work/flake8" companion python tools tests bench examples
else
    skips "the style: flake8 isn't here"
fi

# What users get, in 35 processor seconds. Tests have ways of their own: they set a path before they import. Each version
# of pylint has other messages, and the configuration is for those of 2.
what="the companions by pylint"
if [[ $(pylint --version 2>/dev/null) == "pylint 2."* ]]; then
    runs 0 pylint companion
else
    skips "the companions: pylint 2 isn't here"
fi
end
