# shellcheck shell=sh disable=SC2154,SC2034
# Builds a program in a clone, for the launcher igesolid, and finds why the one in dist/ doesn't do.

# Sets why dist/ has no program for this clone and this machine.
find_why() {
    if ! command -v sha256sum >/dev/null; then
        fail "sha256sum isn't on PATH, so the program can't be compared with the sources"
    elif [ -z "$sources" ]; then
        fail "the checksum of the sources can't be formed: $("$here/dist/sources" 2>&1 >/dev/null | head -n 1)"
    elif [ "$wanted_from" != dist ]; then
        why='no program has been built here from these sources'
        return
    fi
    case $(uname -m) in
    aarch64 | arm64) machine=aarch64 ;;
    *) machine=x86_64 ;;
    esac
    mean "$name"
    recall sources "$here/dist/BUILT"
    if [ ! -f "$shipped" ]; then
        why="$shipped is missing (git restores it: git checkout dist)"
    elif [ "$recalled" != "$sources" ]; then
        why="dist/ holds no program built from these sources$(differing_source)"
    elif ! is_whole 2>/dev/null; then
        why="$shipped isn't the program of dist/SHA256SUMS (git restores it: git checkout dist)"
    elif [ ! -x "$shipped" ]; then
        why="$shipped isn't executable (chmod +x makes it so)"
    else
        why="the program in dist/ doesn't start on this machine"
    fi
}

# Names a file that makes the sources differ, where git tells: one that it doesn't know, or one that was changed.
differing_source() {
    command -v git >/dev/null && [ -e "$here/.git" ] || return 0
    tracked=$(cd "$here" && git ls-files -- crates crates.txt HANDLES 2>/dev/null) && [ -n "$tracked" ] || return 0
    stray=$("$here/dist/sources" --list | { printf '%s\n' "$tracked" "$tracked" && cat; } | LC_ALL=C sort | uniq -u | head -n 1)
    if [ -n "$stray" ]; then
        echo ", since git doesn't know $stray (remove it, or build)"
        return
    fi
    changed=$(cd "$here" && git diff --name-only HEAD -- crates crates.txt HANDLES 2>/dev/null | head -n 1)
    [ -z "$changed" ] || echo ", since $changed was changed (git checkout restores it)"
}

# The crates that the program depends on, lowest first, and the program last.
crates_needed() {
    awk -F': *' -v last="$crate" '
        !/^#/ && NF { below[++n] = $2; name[n] = $1 }
        END {
            needed[last]
            for (i = n; i > 0; i--)
                if (name[i] in needed) { split(below[i], names, " "); for (k in names) needed[names[k]] }
            for (i = 1; i <= n; i++) if (name[i] in needed) print name[i]
        }' "$here/crates.txt"
}

time_so_far() {
    seconds=$(($(date +%s) - begun))
    printf '%d min %02d s' $((seconds / 60)) $((seconds % 60))
}

# On a terminal one line, updated each second, shows the progress of the build; otherwise each crate gets a line.
tick() {
    while kill -0 $$ 2>/dev/null; do
        printf '\r\033[Kigesolid: %d of %d crates proved, now %s, %s' "$proved" "$count" "$it" "$(time_so_far)" >&2
        sleep 1
    done
}

start_ticking() {
    ticker=
    if [ -t 2 ]; then
        tick &
        ticker=$!
    fi
}

stop_ticking() {
    if [ -n "${ticker-}" ]; then
        kill "$ticker" 2>/dev/null
        wait "$ticker" 2>/dev/null
        ticker=
        printf '\r\033[K' >&2
    fi
}

# The words of the program's first command, on an example: its build ends with a run of it, which succeeds.
trial_words() {
    rest=
    while IFS=$tab read -r row owner words _; do
        case $row,$owner,$words in
        program,"$name",rest) rest=yes ;;
        command,"$name",*) break ;;
        esac
    done <"$table"
    [ -z "$rest" ] || words=${words#* }
    for it in $words; do
        case $it in
        FILE) echo '../../examples/cube.igs' ;;
        *) echo "$it" ;;
        esac
    done
}

prove() {
    if [ "$1" = "$crate" ]; then
        words="run -- $(trial_words)"
    else
        words=lib
    fi
    # shellcheck disable=SC2016,SC2086
    attend sh -c 'cd "$1" && shift && exec "$@"' sh "$here/crates/$1" rt $words </dev/null >"$log" 2>&1
}

# Each crate keeps what is proved of it, so an interrupted build resumes there.
build() {
    command -v rt >/dev/null || fail "$why, and rt, the kit that builds it, isn't on PATH"
    mkdir -p "${built%/*}" || fail 'the clone is read-only, so nothing can be built there'
    log=${built%/*}/build.log
    needed=$(crates_needed)
    count=$(echo "$needed" | wc -l)
    proved=0
    begun=$(date +%s)
    say "$why: building it; if nothing is proved yet this takes over half an hour"
    for it in $needed; do
        start_ticking
        prove "$it" || { stop_ticking; fail "crate $it could not be built: see $log"; }
        stop_ticking
        proved=$((proved + 1))
        [ -t 2 ] || say "$proved of $count crates proved, $it the last, $(time_so_far)"
    done
    [ ! -t 2 ] || say "$count crates proved, $(time_so_far)"
    # If a source was changed meanwhile, the next run builds it again.
    printf 'sources %s\nkit %s\nprogram %s\n' "$sources" "$(rt version)" "$(sum_of "$built")" >"$built.from"
}
