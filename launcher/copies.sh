# shellcheck shell=sh disable=SC2154
# Copies of files that can be read once, for the launcher igesolid.

# Runs a command on a file and the words behind it. A file that can be read once is copied first, for it is read twice.
on_readable() {
    command=$1
    shift
    if [ $# -ne 2 ] || ! is_read_once "$1"; then
        "$command" "$@"
        return
    fi
    more input
    if [ "$1" = - ] && ! is_open_input; then
        return 4
    fi
    make_copies "$1"
    copy=$copies/${1##*/}
    [ "$1" != - ] || copy="$copies/standard input"
    copy_file "$1" >"$copy"
    status=$?
    if [ "$status" -eq 0 ]; then
        "$command" "$copy" "$2"
        status=$?
    else
        status=4
    fi
    remove_copies
    return "$status"
}

is_read_once() {
    case $1 in
    - | /dev/stdin | /dev/fd/* | /proc/*/fd/*) return 0 ;;
    esac
    [ -p "$1" ] || [ -c "$1" ]
}

# Makes the folder of copies, where there is none yet.
make_copies() {
    [ -z "${copies-}" ] || return 0
    copies=$(LC_ALL=C mktemp -d 2>&1) && return
    say "$1: it can't be copied to ${TMPDIR:-/tmp}: ${copies##*: }"
    exit 5
}

# One byte more than the limit is enough for the program's answer.
copy_file() {
    if [ "$1" = - ]; then
        attend head -c $((file_limit + 1))
    else
        attend head -c $((file_limit + 1)) -- "$1"
    fi 2>/dev/null
}

remove_copies() {
    rm -rf "$copies"
    copies=
}
