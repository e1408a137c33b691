# shellcheck shell=sh disable=SC2154
# Why a run failed, for the launcher igesolid: what the program reports by its status alone.
newline='
'

# Whether words are those of a form; sets the file and the certificate among them.
fits() {
    file=
    certificate=
    for part in $1; do
        [ "$part" != .. ] || return 0
        [ $# -gt 1 ] || return 1
        shift
        case $part in
        *..*) return 0 ;;
        FILE) file=$1 ;;
        CERT) certificate=$1 ;;
        N) is_number "$1" || return 1 ;;
        R) is_remedy "$1" || return 1 ;;
        *) [ "$part" = "$1" ] || return 1 ;;
        esac
    done
    [ $# -eq 1 ]
}

is_number() {
    case $1 in
    '' | *[!0-9]*) return 1 ;;
    esac
}

# Whether a word is the number of a remedy.
is_remedy() {
    case $1 in
    [1-6]) ;;
    *) return 1 ;;
    esac
}

# Sets the form of their kind that the words have, by the table, and the file and the certificate among them.
find_form() {
    while IFS=$tab read -r row _ form _; do
        if [ "$row" = "$kind" ] && fits "$form" "$@"; then
            return 0
        fi
    done <"$table"
    form=
    file=
    certificate=
    return 1
}

# What a file is called in messages.
name_of() {
    case $1 in
    -) echo 'standard input' ;;
    '') echo 'an empty name' ;;
    *) printf %s "$1" ;;
    esac
}

# Why a file can't be read, found by trying it again; nothing if it can be read, or can't be tried twice.
cause_of() {
    if [ "$1" = - ]; then
        if (exec 3<&0) 2>/dev/null; then
            cause_of /dev/stdin
        else
            echo 'is closed'
        fi
    elif [ -d "$1" ]; then
        echo 'is a folder'
    elif [ -p "$1" ] || [ -c "$1" ] || [ -b "$1" ]; then
        return
    elif ! (exec <"$1") 2>/dev/null; then
        echo "can't be opened: $(failure_of "$1")"
    else
        failure=$(failure_of "$1")
        [ -z "$failure" ] || echo "a read failed: $failure"
    fi
}

# What the system says where a file is read, as far as the program reads it. Its name is never -, so no other input is read.
failure_of() {
    failure=$(LC_ALL=C head -c "$certificate_limit" -- "$1" 2>&1 >/dev/null)
    printf %s "${failure##*: }"
}

say_unread() {
    for it in "$file" ${certificate:+"$certificate"}; do
        cause=$(cause_of "$it")
        if [ -n "$cause" ]; then
            say "$(name_of "$it"): $cause"
            return
        fi
    done
    say "$(name_of "$file")${certificate:+ or $(name_of "$certificate")}: a read failed"
}

# Whether a file is within a limit: yes, no, or unknown if it isn't a regular file.
within() {
    if [ ! -f "$1" ]; then
        echo unknown
    elif [ "$(wc -c <"$1")" -le "$2" ]; then
        echo yes
    else
        echo no
    fi
}

# What has too many bytes: the file or the certificate if its size shows it, otherwise what the sizes don't rule out.
say_too_large() {
    of_file=$(within "$file" "$file_limit")
    of_certificate=yes
    [ -z "$certificate" ] || of_certificate=$(within "$certificate" "$certificate_limit")
    is_file="the file has more than 164,000,000 bytes"
    is_certificate="the certificate has more than 536,870,912 bytes"
    if [ "$of_file" = no ]; then
        say "$(name_of "$file"): $is_file"
        return
    fi
    if [ "$of_certificate" = no ]; then
        say "$(name_of "$certificate"): $is_certificate"
        return
    fi
    [ "$of_file" != yes ] || is_file=
    [ "$of_certificate" != yes ] || is_certificate=
    is_text=
    case $form in
    'extract FILE N') is_text="the extracted text would have more than 164,000,000 bytes" ;;
    'compact FILE N') is_text="the compact text would have more than 164,000,000 bytes" ;;
    'reorient FILE N') is_text="the reoriented text would have more than 164,000,000 bytes" ;;
    'mend FILE N' | 'mend FILE N R' | 'mended FILE N' | 'mended FILE N R')
        is_text="the mended text would have more than 164,000,000 bytes"
        ;;
    'relayout FILE' | 'layout FILE') is_text="the file in the layout of the fixed form would have more than 164,000,000 bytes" ;;
    'upgrade FILE CERT') is_text="the upgraded text would have more than 536,870,912 bytes" ;;
    'certify FILE all') is_text="its solids together have more than 6,000,000 loop uses" ;;
    esac
    causes=
    for it in "$is_file" "$is_certificate" "$is_text"; do
        [ -z "$it" ] || causes="$causes${causes:+, or }$it"
    done
    say "$(name_of "$file"): $causes"
}

# Asks whether a certificate belongs to the file, where the answer is that it names a solid or a shell that isn't so in the file.
ask_about_certificate() {
    [ -f "$file" ] && [ -f "$certificate" ] || return 0
    case $("$program" "$@" 2>/dev/null </dev/null) in
    'line '[234]' unfit' | *'fail ENTRY '*' 0' | *'fail TYPE '*' 0')
        say "$certificate: does this certificate belong to $file? It is of a solid or shell that isn't so in this file"
        ;;
    esac
}

# Names the command that may put the lines of a file right, where the answer is that they aren't those of the fixed form.
name_layout() {
    [ "$kind" = command ] && [ -f "$file" ] || return 0
    [ "$given" = all ] || shift
    answer=$("$program" "$@" 2>/dev/null </dev/null)
    case ${answer%%"$newline"*} in
    'bad file line '*' not-fixed' | 'bad file line '*' length' | 'bad file line '*' letter' | 'bad file line '*' missing' | \
        'bad file line '*' number' | 'bad file line '*' counts' | 'bad file line '*' after')
        say "$(name_of "$file"): its lines aren't those of the fixed form; igesolid layout says whether igesolid relayout can put them right"
        ;;
    esac
}

# Says why nothing is mended, where the answer tells so: as a rule standard output is the file that is wanted.
say_unmended() {
    [ -f "$file" ] || return 0
    answer=$("$program" "$@" 2>/dev/null </dev/null)
    why="$(name_of "$file"): nothing is mended:"
    case ${answer##*"$newline"} in
    stuck) say "$why no remedy is known that closes the solid" ;;
    'needs faces '*) say "$why faces must be made anew; igesolid where names the edges of their rims" ;;
    'unsure '*) say "$why the records don't tell which remedy is meant; igesolid mended FILE N ${answer##* } tells one, and igesolid mend FILE N ${answer##* } writes it" ;;
    esac
}

# Prints the cause of a status with which the program writes nothing or only a part, what is wrong with the words of a run, a
# question about a certificate that isn't accepted, why nothing is mended, and the command for a file whose lines are wrong.
explain() {
    code=$1
    shift
    find_form "$@" || :
    # Python explains what it does with files that the launcher doesn't know.
    [ "$kind" != python ] || [ -n "$file" ] || return 0
    case $code in
    1)
        [ -z "$certificate" ] || ask_about_certificate "$@"
        case $form in
        'mend '*) say_unmended "$@" ;;
        esac
        ;;
    2)
        more usage
        say_wrong_words "$@"
        ;;
    3) name_layout "$@" ;;
    4) say_unread ;;
    5) fail_output "${file:+$(name_of "$file")}" ;;
    6) say "${file:+$(name_of "$file"): }out of memory" ;;
    8) say_too_large ;;
    9) say "the system doesn't provide the program's arguments" ;;
    esac
}
