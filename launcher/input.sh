# shellcheck shell=sh disable=SC2154,SC2034
# Standard input in the place of a file, for the launcher igesolid.

# Runs the program with standard input where - stands. It can't be read twice, so given twice it is no form of words.
perform_on_input() {
    times=0
    for it; do
        shift
        if [ "$it" = - ]; then
            times=$((times + 1))
            it=/dev/stdin
        fi
        set -- "$@" "$it"
    done
    [ "$times" -eq 1 ] || set --
    is_open_input || return 4
    feed=
    ! is_only_ahead || feed=yes
    attend "$program" "$@"
}

is_open_input() {
    (exec 3<&0) 2>/dev/null
}

# Whether standard input can't be opened again as it is: a socket, or a file of which a part was read. It comes through a pipe then.
is_only_ahead() {
    [ ! -S /dev/stdin ] || return 0
    [ -f /dev/stdin ] && (
        find_descriptor && eval "exec $descriptor<&0" && read -r _ position <"/proc/self/fdinfo/$descriptor" && [ "$position" != 0 ]
    ) 2>/dev/null
}
