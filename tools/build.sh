# Proves and builds what ./run, ./install and the tests need. Read in by a script that has set `here`, the repository's folder:
#   build programs    leaves target/built/choose, target/built/replay and target/built/choose_csv
#   build library     leaves target/built/libnolkrada.a
# It says on standard error how far the proving is. Where something fails it says what, with the log, and ends the script with 3.
#
# Beside what was built stands a sum of crates.txt and of every file below crates/ but those of rt (out/), names and bytes. While the sum is the same,
# nothing is proved and rt is not called. The times of files play no part, and a file that was removed changes the sum.
# A file is copied under another name and moved to its own, so no call meets half of it. One call proves at a time: it holds a lock
# on the repository's folder through an open file, as do rt and its children; the lock ends with them, however they end.

built=$here/target/built
job=

say() { printf 'nolkrada: %s\n' "$*" >&2; }

fail() {
    say "$*"
    exit 3
}

sum_now() { (cd "$here" && find crates crates.txt -type f ! -path 'crates/*/out/*' -exec sha256sum {} + | LC_ALL=C sort | sha256sum); }

files_of() { # PART
    case $1 in
    programs) echo choose replay choose_csv ;;
    library) echo libnolkrada.a ;;
    esac
}

fresh() { # PART SUM
    for one in $(files_of "$1"); do [ -f "$built/$one" ] || return 1; done
    [ "$(cat "$built/$1.sum" 2>/dev/null)" = "$2" ]
}

# How many crates the named ones are, with all that they use.
crates_of() {
    WANTED="$*" awk '
        function visit(n,    a, k, m) {
            if (n in seen || !(n in uses)) return
            seen[n] = 1; count++
            m = split(uses[n], a, " ")
            for (k = 1; k <= m; k++) visit(a[k])
        }
        { sub(/#.*/, ""); i = index($0, ":"); if (i) { split(substr($0, 1, i - 1), name, " "); uses[name[1]] = substr($0, i + 1) } }
        END { m = split(ENVIRON["WANTED"], a, " "); for (k = 1; k <= m; k++) visit(a[k]); print count + 0 }' "$here/crates.txt"
}

# Ends the proving with the script. rt has a session of its own, so that its children end with it; they ignore an interrupt.
stop() { # STATUS
    trap '' HUP INT PIPE TERM
    [ -z "$job" ] || kill -s TERM -- "-$job" 2>/dev/null || kill -s TERM "$job" 2>/dev/null
    rm -f "$built/pipe" "$built/new"
    exit "$1"
}

# Shows the crates as rt proves them, and keeps all that it says.
progress() { # HOW MANY
    proved=0
    while IFS= read -r line; do
        printf '%s\n' "$line" >&3
        case $line in
        'rt: '*' proved (unchanged'*) proved=$((proved + 1)) ;;
        'rt: '*' proved ('*)
            proved=$((proved + 1))
            line=${line#rt: }
            say "proved $proved of $1: ${line%% *} (${line##*\(}"
            ;;
        esac
    done
}

prove() { # rt's verb, then crates
    log=$built/$1.log
    many=$(shift && crates_of "$@")
    rm -f "$built/pipe" "$built/new"
    { mkfifo "$built/pipe" && true >"$log"; } 2>/dev/null || fail "cannot write in $built"
    say "proving and building (rt $*): $many crates, some minutes where none is proved yet"
    trap 'stop 129' HUP
    trap 'stop 130' INT
    trap 'stop 141' PIPE
    trap 'stop 143' TERM
    (
        cd "$here" || exit
        exec $(command -v setsid) tools/prove "$@"
    ) </dev/null >"$built/pipe" 2>&1 &
    job=$!
    progress "$many" <"$built/pipe" 3>"$log"
    ended=0
    wait "$job" || ended=$?
    job=
    trap - HUP INT PIPE TERM
    rm -f "$built/pipe"
    [ "$ended" -eq 0 ] || {
        cat "$log" >&2
        fail "not proved: rt $* ended with status $ended; the lines above are $log"
    }
}

# Moves a file that rt has built to its place.
keep() { # FILE
    { cp "$1" "$built/new" && mv -f "$built/new" "$built/${1##*/}"; } 2>/dev/null || fail "cannot copy $1 to $built (where it is missing, remove $here/target and call again)"
}

build() { # PART
    command -v sha256sum >/dev/null 2>&1 || fail "sha256sum is not on the path"
    now=$(sum_now)
    ! fresh "$1" "$now" || return 0
    command -v rt >/dev/null 2>&1 || fail "rt, the command of the Rattle kit, is not on the path: nothing can be proved or built"
    mkdir -p "$built" 2>/dev/null && [ -w "$built" ] || fail "cannot write in $built: nothing can be proved or built there"
    exec 9<"$here"
    if command -v flock >/dev/null 2>&1 && ! flock -n 9; then
        say "another call is proving: waiting for it"
        flock 9
    fi
    now=$(sum_now)
    if ! fresh "$1" "$now"; then
        case $1 in
        programs) prove check $(files_of programs) ;;
        library) prove staticlib nolkrada ;;
        esac
        [ "$(sum_now)" = "$now" ] || fail "the sources changed while they were proved: call again"
        rm -f "$built/$1.sum"
        case $1 in
        programs) from=bin ;;
        library) from=staticlib ;;
        esac
        for one in $(files_of "$1"); do keep "$here/target/$from/$one"; done
        { printf '%s\n' "$now" >"$built/new" && mv -f "$built/new" "$built/$1.sum"; } 2>/dev/null || fail "cannot write in $built"
    fi
    exec 9>&-
}
