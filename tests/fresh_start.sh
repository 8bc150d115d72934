# Starts words free of what the caller has set: bash tests/fresh_start.sh WORD..
#
# That is: ignored signals, umask, locale, input, a folder for temporary files that can't be used, no HOME, a PATH without
# the system's own tools. A job in the background begins with INT and QUIT ignored, one under nohup with HUP, and no shell
# can take that back. tests/quick.sh and tests/companions.sh start so all that they try.
umask 022
unset CDPATH LANGUAGE "${!LC_@}"
export LANG=C.UTF-8
[[ :$PATH: == *:/usr/sbin:* ]] || export PATH=$PATH:/usr/sbin:/sbin
[[ ${TMPDIR-} == /* && -d $TMPDIR && -w $TMPDIR ]] || unset TMPDIR
[ -d "${HOME-}" ] || { unset HOME && HOME=~; }
[ -d "$HOME" ] || HOME=/
export HOME
exec env --default-signal "$@" </dev/null
