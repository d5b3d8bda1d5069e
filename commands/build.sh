# shellcheck shell=bash disable=SC2064,SC2154
# Proves and builds the program that program_of named, in a checkout. What is kept lies in target/command: the program as it last passed its check, the log
# of its build, and a lock. What rt keeps lies in crates/NAME/out.

# The bytes of a crate's sources that are proved in a second on one processor, more or less: for the estimate before there is a measured pace.
PACE=6000

# Whether the program passed its check and nothing that it could be made of has changed since the check began. The time compared is that of the
# file's last change of any kind, which nothing sets back; folders count, since theirs moves on when a file goes, but for a crate's own, in which rt
# makes its out.
is_current() {
    local changed
    [ -x "$program" ] || return 1
    changed=$(find "$root/crates.txt" "$root/crates" \( -name must-fail -o -name out \) -prune -o -type d -path "$root/crates/*" ! -path "$root/crates/*/*" -o \
        -newercm "$program" -print -quit) && [ -z "$changed" ]
}

build() {
    command -v rt >/dev/null || fail "the program is to be built, which needs the Rattle toolchain, and there is no rt on PATH"
    { mkdir -p "$made" && : >>"$made/lock"; } 2>/dev/null || fail "the program is to be built, and $root/target cannot be written"
    {
        if ! flock -n 9; then
            say "another call is building; waiting for it"
            flock 9
        fi
        is_current || locked_build
    } 9>>"$made/lock"
}

# Proves and builds the program. rt goes on from the crates that it has proved before. What has passed is copied, so that a later check never
# changes it under a call; its time is that at which the check began.
locked_build() {
    local began=$made/$crate.began log=$made/$crate.log needed kept
    needed=$(crates_needed)
    kept=$(crates_kept <<<"$needed")
    say "proving and building the program, $(wc -l <<<"$needed") crates; log in $log"
    : >"$began" && : >"$log"
    SECONDS=0
    set -m # the build is a process group of its own, so that all of it can be ended
    (check_program) >"$log" 2>&1 3<&- </dev/null &
    building=$!
    set +m
    local signal
    for signal in HUP INT TERM; do trap "stop_build $signal" "$signal"; done
    watch_build "$needed" "$kept"
    if wait "$building" && cp "$root/crates/$crate/out/$crate" "$program.new" && touch -r "$began" "$program.new" && mv -f "$program.new" "$program"; then
        trap - HUP INT TERM
    else
        tail -n 5 "$log" >&2
        fail "the program did not pass its check, so it is not run; log in $log"
    fi
}

# Proves, builds and runs the program, on the input that is stored beside its sources: what it writes has to be what is stored there.
check_program() {
    cd "$root/crates/$crate" || return
    local given=/dev/null wanted=/dev/null
    [ ! -f stdin ] || given=stdin
    [ ! -f stdout ] || wanted=stdout
    rt run <"$given" >"$made/$crate.wrote" || return
    cmp -s "$made/$crate.wrote" "$wanted" || { echo "$crate: what the program wrote, in $made/$crate.wrote, is not what its file 'stdout' has"; return 1; }
}

# Shows how far the build is until it ends: on a terminal in one line that changes, else in a line for each number of crates.
watch_build() { # CRATES KEPT
    local now shown='' running=yes
    while [ "$running" = yes ]; do
        kill -0 "$building" 2>/dev/null || running=no
        now=$(progress "$1" "$2")
        if [ -t 2 ]; then
            printf '\r%s: %-56s' "$name" "$now" >&2
        elif [ "${now%% *}" != "$shown" ]; then
            say "$now"
        fi
        shown=${now%% *}
        [ "$running" = no ] || sleep 0.5
    done
    [ ! -t 2 ] || echo >&2
}

# How many crates are proved, the time, and about how long the others take. A crate counts once rt has told of its check, or of the check of one above it, or if
# it was proved before. While nothing is proved anew, nothing is said of the rest. The pace is that of the bytes proved so far; at first, while much is begun and little has ended, the
# usual one weighs more.
progress() { # CRATES KEPT
    awk -v kept="$2" -v seconds="$SECONDS" -v processors="$(nproc)" -v usual="$PACE" '
        BEGIN { split(kept, list, " "); for (i in list) proven[list[i]] }
        told { if (/^rt: running /) whole = 1; if (/^crate [a-z_0-9]+: /) { sub(/:$/, "", $2); ended[$2] } next }
        { line[++crates] = $0 }
        END {
            if (whole) { split(line[crates], word, " "); proven[word[1]] } # the program, which is the last
            for (i = crates; i > 0; i--) {
                n = split(line[i], word, " ")
                if (word[1] in ended) done += word[2]
                else if (!(word[1] in proven)) { left += word[2]; continue }
                proved++
                for (j = 3; j <= n; j++) proven[word[j]]
            }
            if (processors > 4) processors = 4 # crates wait for each other
            pace = (120 * usual * processors + done) / (120 + seconds)
            minutes = int(left / pace / 60 + 1)
            about = !left || (!done && seconds < 10) ? "" : minutes == 1 ? ", about a minute left" : ", about " minutes " minutes left"
            print proved + 0 " of " crates " crates proved, " seconds " s" about
        }' told=1 "$made/$crate.log" told='' - <<<"$1"
}

# The crates of the repository that the program is made of, a line each, those below first: with the bytes of its sources and the crates that it uses.
crates_needed() {
    find "$root/crates" \( -name must-fail -o -name out \) -prune -o -type f -printf '%P/%s\n' | awk -v crate="$crate" '
        function visit(name,    i, n, used, below) {
            if (name in seen || !(name in uses)) return
            seen[name] = 1
            n = split(uses[name], used, " ")
            for (i = 1; i <= n; i++) { visit(used[i]); if (used[i] in uses) below = below " " used[i] }
            print name, bytes[name] + 0 below
        }
        sizes { n = split($0, part, "/"); bytes[part[1]] += part[n]; next }
        { sub(/#.*/, ""); at = index($0, ":") }
        at { split(substr($0, 1, at - 1), word, " "); uses[word[1]] = substr($0, at + 1) }
        END { visit(crate) }' sizes=1 - sizes='' "$root/crates.txt"
}

# Those of them whose libraries are there, and newer than their sources and the crates below. Standard input: what crates_needed prints.
crates_kept() {
    local of _ below one kept=' ' library
    while read -r of _ below; do
        library=$root/crates/$of/out/rlib/stamp
        [ -f "$library" ] || continue
        for one in $below; do [[ $kept = *" $one "* ]] || continue 2; done
        [ -n "$(find "$root/crates/$of" -mindepth 1 \( -name must-fail -o -name out \) -prune -o -newer "$library" -print -quit)" ] || kept+="$of "
    done
    echo "$kept"
}

stop_build() { # SIGNAL
    trap - HUP INT TERM
    kill -TERM -- "-$building" 2>/dev/null
    wait "$building" 2>/dev/null
    [ ! -t 2 ] || echo >&2
    say "the build was interrupted; the next call goes on from the crates that are proved"
    kill "-$1" "$$"
}
