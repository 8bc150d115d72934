# Makes the starts of companions cheaper, of which tests have thousands: top=DIR; . tests/compiled.sh FOLDER
#
# What python compiles of the modules is kept in a folder, for all that is started. (The script zelkuma keeps none of it, and some
# callers have PYTHONDONTWRITEBYTECODE.) A python3 that is itself a script, as pyenv's, looks for the real one at each start: PATH
# leads to that one.
if [ -z "${PYTHONPYCACHEPREFIX-}" ] && python3=$(type -P python3); then
    unset PYTHONDONTWRITEBYTECODE
    export PYTHONPYCACHEPREFIX=$1
    IFS= read -r -n 2 start <"$python3" && [ "$start" = '#!' ] &&
        PATH=$(python3 -c 'import os, sys; print(os.path.dirname(sys.executable))'):$PATH
    python3 -m compileall -q "$top/companion" >/dev/null
fi
