# What zelkuma says of itself: its word --version. The script has set `top` and `program`.

# The commit of this tree. Without git it is what the script was installed or exported with.
commit_of_tree() {
    local commit
    if [ -e "$top/.git" ] && commit=$(git -C "$top" rev-parse HEAD 2>/dev/null); then
        # (git would write to the index, but for its option)
        [ -z "$(git --no-optional-locks -C "$top" status --porcelain)" ] || commit+=", changed since"
    else
        commit=$(<"$top/release/COMMIT")
        [[ $commit != *Format* ]] || commit=unknown
    fi
    echo "$commit"
}

tell_version() {
    local digest=unknown word rest kits=() is_shipped='' other=''
    ! hash sha256sum 2>/dev/null || read -r digest _ < <(sha256sum <"$program")
    while read -r word rest; do
        [ "$word" != kit ] || kits+=("$rest")
        [ "$word $rest" != "program $digest" ] || is_shipped=1
    done <"$top/release/STAMP"
    [ -n "$is_shipped" ] || other=" with another program than the shipped one"
    [ "$digest" != unknown ] || other="; whether its program is the shipped one isn't known"
    echo "zelkuma $(<"$top/VERSION")$other"
    echo "program $digest $program"
    if [ -n "$is_shipped" ]; then
        printf 'kit %s\n' "${kits[@]}"
    else
        echo "kit unknown: release/STAMP says nothing of this program"
    fi
    echo "commit $(commit_of_tree)"
}
