# What the scripts share: a folder of their own, an end by signals, a bound in time. It is sourced.

# What the tools do not take in the name of the repository's folder: cargo a colon, its linker lld a per cent sign, rt a line end.
case $PWD in
*[:%]* | *'
'*)
    echo "$0: the repository's folder can't be one with a colon, a per cent sign or a line end in its name: cargo and rt fail there" >&2
    exit 2
    ;;
esac

# After HUP, INT and TERM a script ends at once, with the signal's status. What it runs by `bounded` and `start` ends with it, and its
# folder is removed.
work= children= starting=
tidy() {
    trap '' HUP INT TERM
    # A signal may come before the number of a new child is noted.
    [ -z "$starting" ] || children="$children ${!-}"
    for child in $children; do
        # The group of `timeout` as well: one that has only just started passes no signal on.
        kill -s TERM -- "-$child" 2>/dev/null || :
        kill -s TERM "$child" 2>/dev/null || :
    done
    for child in $children; do
        wait "$child" 2>/dev/null || :
    done
    [ -z "$work" ] || rm -rf "$work"
}

ends() {
    trap '' HUP INT TERM
    exit "$1"
}
trap tidy EXIT
trap 'ends 129' HUP
trap 'ends 130' INT
trap 'ends 143' TERM

# Makes the folder $work. Its name has to be quoted, so that each run tries whether it is.
make_work() {
    work=$(mktemp -d "${TMPDIR:-/tmp}/it's a \$test; \"&.XXXXXX")
}

timeout=timeout
command -v timeout >/dev/null 2>&1 || timeout=

# Starts a command, for so many seconds at most, 0 for as long as it takes; $child is its number. `timeout` also ends what the command
# has started; where there is no `timeout`, the command alone is ended.
start() {
    bound=$1 starting=yes
    shift
    if [ -n "$timeout" ]; then
        timeout -k 30 "$bound" "$@" &
        child=$!
    else
        "$@" &
        child=$!
    fi
    children="$children $child" starting=
    if [ -z "$timeout" ] && [ "$bound" -ne 0 ]; then end_after "$bound" "$child" >/dev/null 2>&1 & fi
}

# Waits for a command that was started. Where its time is over, the status is 124 or that of a signal.
finish() {
    ended=0
    wait "$1" || ended=$?
    left=
    for child in $children; do
        [ "$child" = "$1" ] || left="$left $child"
    done
    children=$left
    return "$ended"
}

# Runs a command as `start` does, and waits for it: a shell heeds no signal while a command runs in front.
bounded() {
    start "$@"
    finish "$child"
}

# Ends a process that is still there after so many seconds.
end_after() {
    left=$1
    while kill -s 0 "$2"; do
        case $left in
        0) kill "$2" ;;
        -30) kill -s KILL "$2" ;;
        esac
        sleep 1
        left=$((left - 1))
    done
}

# ---- the archive, from the repository's folder

archive=target/staticlib/libexports.a

# What the archive was made of and what it is, as one sum. In out/ rt keeps files of its own.
archive_sum() {
    {
        rt version
        cat crates.txt
        find crates -name out ! -path 'crates/*/*/*' -prune -o -type f \( -name '*.rt' -o -name '*.antt' \) -exec sha256sum {} + | LC_ALL=C sort
        sha256sum "$archive"
    } | sha256sum
}

# Whether the archive is there, of just these files.
is_archive_made() {
    [ -f "$archive" ] && [ -f "$archive.sum" ] && [ "$(archive_sum)" = "$(cat "$archive.sum")" ]
}

# Makes it, where it is not there or of other files: the static library of the crate exports_c, under the name that C callers know.
# What has not changed is not proved again. Where no processor is named, rt takes a newer one than the first of x86-64.
make_archive() {
    if is_archive_made; then return; fi
    rm -f "$archive.sum"
    bounded 0 sh -c 'cd crates/exports_c && exec rt lib --cpu x86-64' || return
    mkdir -p "${archive%/*}" && cp crates/exports_c/out/libexports_c.a "$archive.new" && mv "$archive.new" "$archive" || return
    archive_sum >"$archive.sum"
}
