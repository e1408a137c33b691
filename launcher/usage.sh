# shellcheck shell=sh disable=SC2154
# What is wrong with the words of a run, for the launcher igesolid.

say_wrong_words() {
    for it; do
        if ! is_utf8 "$it"; then
            say "$it: this argument isn't UTF-8"
            return
        fi
    done
    if ! is_command "$1"; then
        say_unknown "$1"
    elif [ "$(count_of_inputs "$@")" -gt 1 ]; then
        say 'standard input (-) can be given once only'
    elif [ "$kind" != python ]; then
        say_wrong_arguments "$@"
    fi
}

is_command() {
    [ -n "$(forms_of "$1")" ]
}

count_of_inputs() {
    times=0
    for it; do
        [ "$it" != - ] || times=$((times + 1))
    done
    echo "$times"
}

# The words of each form of a command.
forms_of() {
    WORD=$1 awk -F'\t' '
        $1 ~ /^(command|python|shell|option)$/ {
            split($3, words, " ")
            if (words[1] == ENVIRON["WORD"]) { printf "%sigesolid %s", separator, $3; separator = ", or " }
        }' "$table"
}

# The command that a word is most like: by the letters to insert, leave out, change or swap, or as the beginning of one.
nearest_command() {
    WORD=$1 awk -F'\t' '
        function least(a, b) { return a < b ? a : b }
        function distance(s, t,    i, j, d, changed) {
            for (i = 0; i <= length(s); i++) d[i, 0] = i
            for (j = 0; j <= length(t); j++) d[0, j] = j
            for (i = 1; i <= length(s); i++)
                for (j = 1; j <= length(t); j++) {
                    changed = substr(s, i, 1) != substr(t, j, 1)
                    d[i, j] = least(least(d[i - 1, j], d[i, j - 1]) + 1, d[i - 1, j - 1] + changed)
                    if (i > 1 && j > 1 && substr(s, i, 1) == substr(t, j - 1, 1) && substr(s, i - 1, 1) == substr(t, j, 1))
                        d[i, j] = least(d[i, j], d[i - 2, j - 2] + 1)
                }
            return d[length(s), length(t)]
        }
        BEGIN {
            word = tolower(ENVIRON["WORD"])
            if (length(word) < 2 || length(word) > 30) exit
            best = length(word) < 8 ? 3 : 4
        }
        $1 ~ /^(command|python|shell|option)$/ {
            split($3, words, " ")
            far = index(words[1], word) == 1 ? 0 : distance(word, words[1])
            if (far < best) { best = far; found = words[1] }
        }
        END { print found }' "$table"
}

say_unknown() {
    near=$(nearest_command "$1")
    if [ -n "$near" ]; then
        say "$1 isn't a command; the nearest is $near: $(forms_of "$near")"
    elif [ -f "$1" ]; then
        say "$1 is a file, and a command comes before it, as in: igesolid certify $1 all"
    else
        say "${1:-an empty word} isn't a command; igesolid --help lists the commands"
    fi
}

# The form of a command that words come closest to: one of as many words that agree, of as many, of more, of less.
closest_form() {
    COUNT=$# WORD=$1 LAST=$(for last; do :; done && printf %s "$last") awk -F'\t' '
        $1 ~ /^(command|shell)$/ {
            n = split($3, words, " ")
            if (words[1] != ENVIRON["WORD"]) next
            fit = n == ENVIRON["COUNT"] ? (words[n] == ENVIRON["LAST"] ? 4 : 3) : n > ENVIRON["COUNT"] ? 2 : 1
            if (fit > best || (fit == best && fit == 1)) { best = fit; form = $3 }
        }
        END { print form }' "$table"
}

say_wrong_arguments() {
    forms=$(forms_of "$1")
    of=$1
    close=$(closest_form "$@")
    wrong=
    missing=
    verb=is
    for part in $close; do
        if [ "${part%..}" != "$part" ]; then
            set --
            break
        elif [ $# -eq 0 ]; then
            [ -z "$missing" ] || verb=are
            missing="$missing${missing:+ and }$part"
            continue
        fi
        case $part in
        FILE* | CERT) ;;
        N) [ -n "$wrong" ] || is_number_of "$of" "$1" || wrong="${1:-an empty word} isn't a number N" ;;
        R) [ -n "$wrong" ] || is_remedy "$1" || wrong="${1:-an empty word} isn't a number R" ;;
        *) [ -n "$wrong" ] || [ "$part" = "$1" ] || wrong="${1:-an empty word} isn't $part" ;;
        esac
        shift
    done
    [ -z "$missing" ] || wrong="$missing $verb missing"
    [ $# -eq 0 ] || wrong="$1 is a word too many"
    say "${wrong:-these words match no form}: the words are $forms"
    case $wrong in
    *"N $verb missing" | *"number N") say "N is $(meaning_of_number "$of")" ;;
    *'number R') say 'R is the number of a remedy, from 1 to 6: igesolid where FILE N all tells them' ;;
    esac
}

# Whether a word is a number that a command takes.
is_number_of() {
    case $2 in
    '' | *[!0-9]* | ????????*) return 1 ;;
    *[1-9]*) ;;
    *) return 1 ;;
    esac
    [ "$1" != sample ] || { [ "${#2}" -le 3 ] && [ "$2" -ge 3 ] && [ "$2" -le 200 ]; }
}

meaning_of_number() {
    case $1 in
    sample) echo 'from 3 to 200' ;;
    open) echo 'the directory number of a shell, of 1 to 7 digits' ;;
    *) echo 'the directory number of a solid, of 1 to 7 digits: igesolid solids FILE lists them' ;;
    esac
}
