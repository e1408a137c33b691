# shellcheck shell=sh disable=SC2154,SC2317
# Writes the page of a solid, for the launcher igesolid: FILE and the text of where go into companion/page.html, whose script draws them.

perform_page() {
    [ $# -eq 3 ] || return 2
    for it in gzip base64; do
        command -v "$it" >/dev/null || fail "page needs $it, which isn't on PATH"
    done
    (exec 3>&1) 2>/dev/null || fail_output "$2"
    template=$support/companion/page.html
    [ -r "$template" ] || fail "$template is missing: install igesolid again"
    shift
    more copies
    on_readable write_page "$@"
}

# The text of where is kept in a file, for its status comes first: where the program doesn't answer there is no page.
write_page() {
    make_copies "$1"
    told=$copies/where.text
    attend "$program" "$1" "$2" all >"$told"
    status=$?
    case $status in
    0 | 1 | 3)
        answered=$status
        attend print_page "$1" "$2" "$told" 2>/dev/null
        status=$?
        case $status in
        0) status=$answered ;;
        44) status=4 ;;
        *) status=5 ;;
        esac
        ;;
    esac
    remove_copies
    return "$status"
}

# The page: its parts, and between them FILE's name and N, the text of where, and FILE. Each step ends it where it fails; the status is
# 44, which no command here has, where FILE can't be read any more.
print_page() {
    sed '/^@WORDS@$/,$d' "$template" &&
        printf '%s\0%s' "${1##*/}" "$2" | base64 &&
        sed '1,/^@WORDS@$/d;/^@WHERE@$/,$d' "$template" &&
        base64 <"$3" &&
        sed '1,/^@WHERE@$/d;/^@FILE@$/,$d' "$template" &&
        { gzip -nc <"$1" || : >"$copies/unread"; } | base64 &&
        { [ ! -e "$copies/unread" ] || return 44; } &&
        sed '1,/^@FILE@$/d' "$template"
}
