# shellcheck shell=sh disable=SC2154
# The launcher's own words, for the launcher igesolid: help, versions, and the paths of programs.

# Ends with the answer to a word of the launcher, or to none.
answer_word() {
    case ${1-} in
    '') answer "$(tell_usage)" 2 ;;
    --version)
        mean igesolid
        choose
        answer "$(tell_version)"
        ;;
    --program)
        look_up "${2-igesolid}" || fail "$2 is neither a program nor a command: igesolid --help lists the commands"
        need
        answer "$program"
        ;;
    *) answer "$(tell_help)" ;;
    esac
}

tell_version() {
    echo "igesolid $version"
    if [ -n "$program" ]; then
        recall sources "$from"
        echo "sources $recalled"
        recall kit "$from"
        echo "kit $recalled"
        echo "program $program"
    else
        echo "sources $sources"
        echo "not built yet: $why"
    fi
}

# The commands to begin with: is it closed, where does it fail, what mends it.
tell_usage() {
    echo 'usage: igesolid COMMAND .., as in'
    echo
    awk -F'\t' -v forms='check FILE|FOLDER..,where FILE,where FILE N,page FILE N,relayout FILE,mend FILE N' '
        { text[$3] = $4 }
        END {
            n = split(forms, form, ",")
            for (i = 1; i <= n; i++) printf "  igesolid %-19s  %s\n", form[i], text[form[i]]
        }' "$table"
    echo
    echo 'igesolid --help lists all commands.'
}

# The commands and the launcher's words, each with its text behind the longest; a program's commands stand together. Then the statuses.
tell_help() {
    pages=$here/README.md
    place=clone
    if [ ! -d "$here/crates" ]; then
        pages=$(readlink -f "$here/../share/doc/igesolid")
        place=installed
    fi
    echo "igesolid $version: solids in files of IGES 5.3"
    awk -F'\t' -v place="$place" '
        /^#/ || NF < 4 { next }
        $1 == "status" {
            statuses = statuses separator $2 " " $4
            separator = ", "
            if ($3 == "always") causes = causes (causes == "" ? "" : ", ") $2
            next
        }
        $1 == "program" || ($1 == "option" && $2 == "clone" && place != "clone") { next }
        {
            group[++n] = $1 == "option" ? $1 : $1 $2
            words[n] = $3
            text[n] = $4
            if (length($3) > width) width = length($3)
        }
        END {
            for (i = 1; i <= n; i++)
                printf "%s  igesolid %-" width "s  %s\n", group[i] == group[i - 1] ? "" : "\n", words[i], text[i]
            sub(/, [0-9]+$/, " and" substr(causes, match(causes, / [0-9]+$/)), causes)
            printf "\nStatus: %s.\nWith %s a line on standard error gives the cause.\n", statuses, causes
        }' "$table"
    echo "Documentation: $pages"
}
