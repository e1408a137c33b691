# shellcheck shell=sh disable=SC2154
# Runs the commands in Python, for the launcher igesolid.

perform_in_python() {
    command -v python3 >/dev/null || fail "$1 needs Python 3.8 or later, and python3 isn't on PATH"
    (exec 3>&1) 2>/dev/null || fail_output "${2-}"
    script=$support/companion/$1
    shift
    case $form in
    *' FILE N')
        more copies
        on_readable run_script "$@"
        ;;
    *' FILE ..')
        more input
        [ "${2-}" != - ] || is_open_input || return 4
        run_on_words "$@"
        ;;
    *) run_on_words "$@" ;;
    esac
}

run_script() {
    attend python3 -B "$script" --program "$program" -- "$@"
}

# Words may be options here. Of several programs the others are given as --NAME-program, with what follows igesolid- as NAME.
run_on_words() {
    first=$program
    while [ -n "$others" ]; do
        others=${others#,}
        mean "${others%%,*}"
        others=${others#"$name"}
        need
        set -- "--${name#igesolid-}-program" "$program" "$@"
    done
    attend python3 -B "$script" --program "$first" "$@"
}
