# The part of ./autonet and of ./fabric that proves and builds a program, tries one, and tells the version. Whoever reads it sets
# name, the name of the wrapper, and root, out and log, its folders and the log of a build; and sample, a word with which
# a program is run once.
# shellcheck shell=sh disable=SC2154

# Tells the version, which is the first one of CHANGES.md, and the commit.
version() {
    echo "$name $(sed -n '/^## [0-9]/{s/^## \([0-9.]*\).*/\1/p;q;}' "$root/CHANGES.md")," \
        "commit $(git -C "$root" rev-parse --short HEAD 2> /dev/null || echo unknown)"
}

# Says a line on the terminal.
say() {
    echo "$name: $1" >&2
}

# The crates that the program $1 stands on, lowest first, and last its own.
crates() {
    awk -v program="$1" '/^[a-z]/ {
            names[++count] = $1
            sub(/:$/, "", names[count])
            sub(/^[^:]*:/, "")
            below[names[count]] = $0
        }
        END {
            is_wanted[program] = 1
            for (i = count; i > 0; i--)
                if (names[i] in is_wanted) {
                    number = split(below[names[i]], needs)
                    for (k = 1; k <= number; k++)
                        is_wanted[needs[k]] = 1
                }
            for (i = 1; i <= count; i++)
                if (names[i] in is_wanted)
                    print names[i]
        }' "$root/crates.txt"
}

# What the program $1 is made of: the kit, and each source with its size and time. (A program has no specs/ and no
# proofs/.) If there is no kit in the path it is the one by which the program is made.
made_of() {
    if rt=$(command -v rt); then
        echo "kit $(cat "$(dirname "$(readlink -f "$rt")")/../KIT-ID" 2> /dev/null)"
    else
        sed -n '/^kit /p' "$out/.$1.made-of" 2> /dev/null
    fi
    # shellcheck disable=SC2046 # (names of crates have no spaces)
    (cd "$root/crates" && find ../crates.txt ../HANDLES $(crates "$1" | sed 's|.*|&/src &/specs &/proofs|') \
        -printf '%p %s %T@\n' 2> /dev/null | LC_ALL=C sort)
}

# Whether the program $1 is built, by the kit and of the sources that there are now.
is_current() {
    [ -x "$out/$1" ] && made_of "$1" | cmp -s - "$out/.$1.made-of"
}

# How many crates are begun at a time: three for two processors, since those that wait for others below them are counted
# too, as far as memory holds 2.5 GB for each.
most_jobs() {
    awk -v processors="$(nproc)" '/^MemAvailable:/ { room = int($2 / 2500000) }
        END { most = int(3 * processors / 2); print (room < 1 ? 1 : room < most ? room : most) }' /proc/meminfo
}

# How far the build of $1 crates is: rt begins what it tells of each with a line of its name.
progress() {
    left=$(($1 - $(grep -c '^== [a-z_]*$' "$log")))
    seconds=$(($(date +%s) - started))
    printf '%s: proving, %s of %s crates left, %d min %02d s' "$name" "$((left > 0 ? left : 0))" "$1" \
        $((seconds / 60)) $((seconds % 60)) >&2
}

# Shows how far the build of $1 crates is, as long as the wrapper lives: each second on a terminal, else each minute.
show() {
    while sleep 1 && kill -0 $$ 2> /dev/null; do
        if [ -t 2 ]; then
            printf '\r' >&2
            progress "$1"
        elif [ $((($(date +%s) - started) % 60)) = 0 ]; then
            progress "$1"
            echo >&2
        fi
    done
}

# Runs a command in a process group of its own, and answers its status; a signal to this shell ends the group.
run() {
    setsid "$@" &
    group=$!
    wait "$group"
}

# Ends the process group of `run`, if there is one.
end_group() {
    [ -z "$group" ] || kill -TERM "-$group" 2> /dev/null
}

# Proves the program $1 and the crates below it, several at a time, and builds it, in a shell of its own.
prove() {
    group=
    trap 'end_group; exit 143' TERM
    cd "$root/crates/$1" || exit
    run rt all check --jobs "$(most_jobs)" && { run rt run -- "$sample" || [ -x "out/$1" ]; }
}

# Ends what shows the progress. It may not have left its parent's traps yet, so that no other signal is sure to end it.
end_ticker() {
    [ -z "$ticker" ] || { kill -KILL "$ticker"; wait "$ticker"; } 2> /dev/null
    ticker=
}

# Proves and builds the program $1.
build() {
    program=$1
    rm -f "$root/crates/$program/out/$program" # so that what stands there is what this build made
    # shellcheck disable=SC2046 # (names of crates have no spaces)
    set -- $(crates "$program")
    progress $#
    [ -t 2 ] || echo >&2
    show $# 9>&- &
    ticker=$!
    prove "$program" < /dev/null >> "$log" 2>&1 9>&- &
    prover=$!
    wait "$prover"
    status=$?
    prover=
    end_ticker
    [ ! -t 2 ] || printf '\r\033[K' >&2
    [ "$status" = 0 ] &&
        cp "$root/crates/$program/out/$program" "$out/$program.new" && mv "$out/$program.new" "$out/$program" &&
        mv "$begun" "$out/.$program.made-of"
}

# Sees to it that there is an rt.
want_rt() {
    if ! command -v rt > /dev/null; then
        say "the program is to be built, and the command rt, which proves and builds it, is not found"
        say "it is part of the Rattle kit: add the kit's folder bin to PATH, and call again"
        exit 127
    fi
}

# Proves and builds the program $1, after the wrapper's own words about it (announce), or ends with 126 or 127. If another
# call of the wrapper builds, this one first waits for it. What such a call locks is the log.
want_program() {
    want_rt
    if ! { mkdir -p "$out" && true >> "$log"; }; then
        say "not built: there is no writing into $out"
        exit 126
    fi
    exec 9>> "$log"
    flock -n 9 || { say "another call is building; this one waits for it"; flock 9; }
    is_current "$1" || build_anew "$1"
    exec 9>&-
}

# Ends a build that goes on: what it began, and what shows its progress.
end_build() {
    [ -z "$prover" ] || { kill -TERM "$prover"; wait "$prover"; } 2> /dev/null
    [ -z "$ticker" ] || [ ! -t 2 ] || echo >&2
    end_ticker
}

# Says that a program is not built, and where one can see why: rt says something in any case, if there is room for it.
say_unbuilt() {
    say "not built, see $log"
    [ -s "$log" ] || say "nothing could be written there: is the disk full?"
}

# Proves and builds the program $1 with a log of its own, or ends with 126.
build_anew() {
    begun=$out/$1.begun # a source that is saved from now on is no more what the program is made of
    : > "$log"
    made_of "$1" > "$begun"
    announce "$1"
    started=$(date +%s)
    ticker=
    prover=
    trap 'rm -f "$begun"; end_build' EXIT
    trap 'exit 130' HUP INT TERM
    build "$1" || { say_unbuilt; exit 126; }
    rm -f "$begun"
    trap - EXIT HUP INT TERM
}

# What a try says every ten seconds, as long as the wrapper lives.
show_try() {
    seconds=0
    while sleep 1 && kill -0 $$ 2> /dev/null; do
        seconds=$((seconds + 1))
        [ $((seconds % 10)) != 0 ] || say "no answer yet, $seconds s"
    done
}

# Hands on to err what rt says, but for the two lines that it adds at the end, and ends with the status in the last line.
own_lines() {
    awk '/^checked: ended status=[0-9]+$/ || /^run=ended status=[0-9]+ / { next }
        /^\001/ { status = substr($0, 2); next }
        { print > "/dev/stderr" }
        END { exit status }'
}

# Answers words by the program of the crate $1, of which nothing is proved, and ends with its status.
try_program() {
    cd "$root/crates/$1" || exit 126
    shift
    say "nothing is proved of the program that answers now; it has 60 seconds, and hands on up to 1 MiB"
    show_try &
    ticker=$!
    exec 8>&1
    { rt try -- "$@" 2>&1 >&8 8>&-; printf '\001%s\n' $?; } | own_lines
    status=$?
    end_ticker
    exit "$status"
}
