# The functions that ./mg and ./prove share. They name $me, the script, and $top, the folder of the repository.
out=$top/crates/mg_cli/out

say() { echo "$me: $*" >&2; }

# Lists the sources and the programs, each with its last change and its number: whatever changes one changes its line. It replaces the
# shell that it runs in, so it stands in a pipe or in $( ).
listing() {
    CDPATH='' cd -- "$top/crates" &&
        exec find ../crates.txt */src */specs mg_cli/out/mg_cli mg_cli/out/mg_cli.sources mg_cli/out/first_look -printf '%p %C@ %i\n' 2>/dev/null
}

# Lists a crate and those that it stands on, each after those below it: their lines of the crates.txt in a folder.
lines_of() {
    awk -F: -v top="$1" '!/^#/ && NF > 1 { split($1, word, " "); name[++n] = word[1]; libraries[n] = $2; line[n] = $0 }
        END {
            made[top]
            for (i = n; i > 0; i--) if (name[i] in made) { m = split(libraries[i], each, " "); while (m) made[each[m--]] }
            for (i = 1; i <= n; i++) if (name[i] in made) print line[i]
        }' "$2/crates.txt"
}

# Their names alone.
below() { lines_of "$1" "$2" | sed 's/[ :].*//'; }

# Finds among the sources of the program, below a folder, by the words given. The sources are what it is made of, and the definitions that
# its contracts name. Proofs are none: another proof changes neither the program nor what is proved of it.
find_sources() {
    from=$1
    shift
    # shellcheck disable=SC2046 # the folders are words of their own
    (CDPATH='' cd -- "$from/crates" && find $(below mg_cli .. | sed 's|.*|&/src\n&/specs|') -type f \( -name '*.rt' -o -name '*.antt' \) "$@") 2>/dev/null
}

checksum() { sha256sum | sed 's/ .*//'; }

# Writes the checksum of the sources that lie below a folder, and of their lines of crates.txt.
sum_of() { { lines_of mg_cli "$1" && find_sources "$1" -exec sha256sum {} + | LC_ALL=C sort -k 2; } | checksum; }

# Returns whether no source was changed since rt made the proved program, by their times. rt ci may have read a source long before: its lock
# tells when it began. rt run leaves a stamp where no source was changed meanwhile.
is_newest() {
    set -- -newer mg_cli/out/mg_cli
    [ ! -e "$top/.git/rt-ci.lock" ] || [ -e "$out/mg_cli.stamp" ] || set -- '(' "$@" -o -newer ../.git/rt-ci.lock ')'
    [ -z "$({ find_sources "$top" "$@" -print && CDPATH='' cd -- "$top/crates" && find ../crates.txt "$@"; } | head -n 1)" ]
}

# Returns whether a program is that of the sources, whose checksum is $sum. That checksum and the program's own stand in a file beside it.
# rt writes no such file for the proved program, which is judged by times then, once.
is_of_sources() {
    [ -x "$out/$1" ] || return 1
    own=$(checksum <"$out/$1") of_sources='' of_program=''
    [ ! -r "$out/$1.sources" ] || read -r of_sources of_program <"$out/$1.sources"
    if [ -n "$own" ] && [ "$of_program" = "$own" ]; then
        [ "$of_sources" = "$sum" ]
        return
    fi
    [ "$1" = mg_cli ] && is_newest || return 1
    echo "$sum $own" 2>/dev/null >"$out/mg_cli.sources"
    return 0
}

# Sets $program to the one of the sources: mg_cli, which is proved, or else first_look, or none. A program that was found is found again by
# the listing of that time, as long as no line of it changes.
choose() {
    for program in mg_cli first_look; do
        [ -e "$out/$program.seen" ] && listing | cmp -s - "$out/$program.seen" && return
    done
    if [ -e "$out/mg_cli" ] || [ -e "$out/first_look" ]; then
        listed=$(listing) sum=$(sum_of "$top")
        for program in mg_cli first_look; do
            is_of_sources "$program" || continue
            [ -z "$listed" ] || printf '%s\n' "$listed" 2>/dev/null >"$out/$program.seen"
            return
        done
    fi
    program=''
}

seconds() { echo $(($(date +%s) - began)); }

# Returns whether nothing was said for nearly 30 seconds.
is_silent() { [ $(($(date +%s) - last)) -ge 28 ]; }

# Ends where a program can't be built, or can't be kept.
need_tools() {
    if ! command -v rt >/dev/null; then
        say "no program of these sources is built, and rt, the command of the Rattle kit that builds it, isn't on the path"
        exit 1
    fi
    mkdir -p "$out" 2>/dev/null && [ -w "$out" ] && return
    say "no program of these sources is built, and none could be kept, as $out can't be written"
    exit 1
}

# Waits until no other call of this script builds. It lasts until this one ends, or closes the file.
take_turn() {
    exec 9<"$top/$me"
    last=0
    # flock ends with 1 where another call holds it; where there is no flock, or no lock to be had, nothing is waited for
    while flock -n 9 2>/dev/null; [ $? = 1 ]; do
        if is_silent; then
            say "another call builds the program; waiting for it ($(seconds) seconds so far)"
            last=$(date +%s)
        fi
        sleep 1
    done
}

clean_up() {
    trap '' INT TERM HUP PIPE
    # shellcheck disable=SC2086 # the runs are words of their own
    kill $main $aside 2>/dev/null
    wait
    rm -f "$new"
    # some disks take long to remove many files; then that goes on after this script has ended, without the lock and without the terminal
    rm -rf "$room" >/dev/null 2>&1 9<&- &
    run=$! waited=0
    while kill -0 "$run" 2>/dev/null; do
        waited=$((waited + 1))
        if [ "$waited" -gt 15 ]; then
            say "$room is still being removed"
            break
        fi
        sleep 0.2 2>/dev/null || sleep 1
    done
}

# Makes a temporary folder for the build of a program, with a copy of what the build reads: the parts named of the crates that the program is
# made of, as the top of a repository. $sum is the checksum of the copy.
open_room() {
    main='' aside='' number=0 last=$(date +%s) new=$out/$1.new
    # a run has its temporary files there; where it is root's, it runs the program as nobody, who has to get there
    room=$(mktemp -d) && room=$(CDPATH='' cd -- "$room" && pwd) && chmod 711 "$room" || exit 1
    trap clean_up EXIT
    trap 'exit 130' INT
    trap 'exit 143' TERM HUP PIPE
    : >"$room/log.0"
    mkdir -p "$room/copy/.git" && cp "$top/HANDLES" "$room/copy/" && lines_of mg_cli "$top" >"$room/copy/crates.txt" || exit 1
    shift
    for name in $(below mg_cli "$room/copy"); do
        mkdir -p "$room/copy/crates/$name" || exit 1
        for part; do
            [ ! -e "$top/crates/$name/$part" ] || cp -R "$top/crates/$name/$part" "$room/copy/crates/$name/" || exit 1
        done
    done
    sum=$(sum_of "$room/copy")
}

# Begins a run in a folder of the copy, by the words given. A process that is begun while a signal is caught can lose that signal until it is
# on its own, so this one isn't caught then.
begin() {
    number=$((number + 1))
    trap - TERM
    (cd "$room/copy/$1" && shift && export TMPDIR="$room" && exec "$@" </dev/null >"$room/log.$number" 2>&1 9<&-) &
    run=$!
    trap 'exit 143' TERM
}

# Writes the lines of a failed build that say why it failed: errors and what isn't proved, or else its last lines.
reasons() {
    cat "$room"/log.* | grep -E '(^|[^a-z])error[:[]|: not proved$|NOT PROVED|not in the layout|cannot|not found|stopped|FAILED' |
        awk '!told[$0]++' | head -n 10 | grep . || tail -n 10 "$room/log.$number" | grep . || echo 'rt said nothing'
}

fail() {
    reasons | sed "s|$room/copy|$top|g" >&2
    say "the build failed after $(seconds) seconds$1"
    exit 1
}

# Keeps a program that was built, under the name that $new begins with. Its checksums are there before it is, and its time is that of the
# copy, so that it never counts as a program of other sources.
keep() {
    cp "$1" "$new" && chmod 755 "$new" && touch -r "$room/log.0" "$new" || exit 1
    echo "$sum $(checksum <"$new")" >"${new%.new}.sources" && mv "$new" "${new%.new}" || exit 1
    say "built in $(seconds) seconds"
    clean_up
    trap - EXIT INT TERM HUP PIPE
}
