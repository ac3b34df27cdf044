#!/bin/sh
# Runs qc with the words and the standard streams given; `./qc --help` says more. Where the program is
# not built, or its sources changed, it is proved and built first. What that does is told on standard
# error, so standard output has what the program writes and nothing else.
top=$(CDPATH='' cd -- "$(dirname -- "$0")" && pwd) || exit 1
page=$top/viewer/index.html
usage='usage: qc run [--dir PATH] [--serial] [--trail] < SCRIPT | qc gen N | qc audit < TRAIL'
usage="$usage | qc view [--dir PATH] [--serial] < SCRIPT"

say() { printf 'qc: %s\n' "$*" >&2; }

# Which crate has the program that is run, with what stands beside it.
take_program() {
    name_of_program=$1
    crate=$top/crates/$1
    program=$crate/out/$1
    stamp=$program.sources
    log=$program.log
    lock=$program.lock
}

help() {
    echo "$usage"
    cat <<'END'

qc runs a script of nested transactions over replicated records, and writes a report of what each
did. The program is proved before it is built: README.md says of what.

  ./qc run < SCRIPT              runs a script: sessions, and bodies of "par", in threads
  ./qc run --serial < SCRIPT     one after another, so that the script alone decides the report
  ./qc run --dir P < SCRIPT      over the disks in the folder P, for a later run too, in either way
  ./qc run --trail < SCRIPT      writes the saved trail of the run in place of the report
  ./qc audit < TRAIL             tells whether it is legal, and the serial order of what it did
  ./qc view < SCRIPT             runs a script, and writes a page that draws what happened in the run,
                                 qc-view-1.html or the next that is free: open it in a browser
  ./qc gen N                     makes a script of the number N, runs it, and writes its last values
  ./qc turns SEED run < SCRIPT   the same with one at a time, chosen by a seed: threads that can be run again
  ./qc turns A..B run < SCRIPT   by each seed from A to B: how many reports, and the least seed of each
  ./qc --unproved run < SCRIPT   the same before the first build is done, unproved
  ./qc --unproved run SCRIPT ..  several scripts, each behind a line "== NAME"
  ./qc --help                    this page

The first call proves and builds the program, which takes a while and is told here; later calls
start at once. An unproved call builds anew each time, in about a minute. Its run may take 60 seconds
and write 1 MiB, and writes nothing before it has ended.

A script, examples/sets_and_reads_back.json:

END
    sed 's/^/  /' "$top/examples/sets_and_reads_back.json"
    cat <<'END'

The other steps are ["add", R, n], ["sub", R, n], ["need", R, n], ["reconf", R, config],
["child", body], ["par", [body, ..]], ["abort", k], ["crash", c] and ["kill", s]. The value in "start"
and "set" is a number or a text; n is a number. Beside "steps" a body may have "tries" and "must";
beside "tops" a session may have "net", with "fates" and "hold"; a script may have "patience".

The exit status is 0 where the report was written, 2 for words that are no command, 3 for a text
that is no script, 4 and 5 where the input or the output failed, 6 where a disk failed, 7 where what
stands on one is refused, 8 where a top is in doubt, 9 where there was no memory, 10 for bytes that
are no saved trail, 11 for one that is not legal, 12 for one that the serial machine refuses, 14 where
the history is full; and 1 where the program could not be built.

examples/ has more scripts, each with its report; docs/FORMATS.md has every step, refusal and line.
END
}

# Words that are no command are refused before anything is built.
refuse_words() {
    echo "$usage"
    say './qc --help says more'
    exit 2
}

# Whether a word is a number as the program reads it: in digits alone, without a 0 before them, below 2^64.
is_number() {
    case $1 in
    0) return 0 ;;
    '' | 0* | *[!0-9]*) return 1 ;;
    esac
    [ ${#1} -lt 20 ] && return 0
    [ ${#1} -eq 20 ] && [ "$(printf '%s\n' "$1" 18446744073709551615 | LC_ALL=C sort | head -n 1)" = "$1" ]
}

# Takes a word for the folder of the disks, where none was named before and it can be one.
take_place() {
    case $1 in '' | -*) return 1 ;; esac
    [ ! "$place" ] && place=$1
}

# Whether a word is a seed, or two with `..` between them.
is_seeds() {
    case $1 in
    *..*) is_number "${1%%..*}" && is_number "${1#*..}" ;;
    *) is_number "$1" ;;
    esac
}

# Whether the words are a command: `run` or `view` with its options behind it, `gen` and a number, or `audit`. Behind
# `run` an unproved call may also name scripts, whose number is told here.
read_words() {
    place=
    serial=
    trail=
    view=
    scripts=0
    case ${1-} in
    gen) [ $# -eq 2 ] && is_number "$2" ;;
    audit) [ $# -eq 1 ] ;;
    run | view)
        [ "$1" = run ] || view=yes
        while [ $# -gt 1 ]; do
            shift
            case $1 in
            --serial) [ ! "$serial" ] && serial=yes || return 1 ;;
            --trail) [ ! "$trail$view" ] && trail=yes || return 1 ;;
            --dir) [ $# -gt 1 ] && shift && take_place "$1" || return 1 ;;
            --dir=*) take_place "${1#--dir=}" || return 1 ;;
            -*) return 1 ;;
            *) [ "${unproved-}" ] && [ ! "$view" ] && [ -f "$1" ] && scripts=$((scripts + 1)) || return 1 ;;
            esac
        done
        ;;
    *) return 1 ;;
    esac
}

# The crate of the program and those that it stands on, the lowest first.
crates() {
    awk -F: -v program="$name_of_program" '
        /^[a-z]/ { name = $1; sub(/ .*/, "", name); on[name] = $2 }
        function below(name,   part, n, i) {
            if (!(name in on) || name in done) return
            done[name] = 1
            n = split(on[name], part, " ")
            for (i = 1; i <= n; i++) below(part[i])
            print name
        }
        END { below(program) }' "$top/crates.txt"
}

# A checksum of each file that the proof reads.
sources() {
    cd "$top" && for name in $(crates); do
        find "crates/$name/src" "crates/$name/specs" "crates/$name/proofs" -type f
    done 2>/dev/null | sort | xargs cksum crates.txt HANDLES
}

is_built() {
    now=$(sources)
    [ -x "$program" ] && [ -f "$stamp" ] && [ "$now" = "$(cat "$stamp")" ]
}

find_rt() {
    rt=$(command -v rt || echo /opt/rattle/bin/rt)
    [ -x "$rt" ] && return
    say "the command rt of the Rattle toolchain is not on the PATH"
    exit 1
}

# What the checker's output tells so far: how many crates there are and are proved, which one is at hand
# where they go in turn, and how many functions are proved.
read_log() {
    crates | awk '
        NR == FNR { place[$1] = count = NR; next }
        $1 == "rt:" && $NF in place { name = $NF }
        $1 == "rt:" && $3 == "proved" && $2 in place { crates++ }
        $2 ~ /^qc_[a-z_]*::/ { name = $2; sub(/::.*/, "", name) }
        $1 " " $2 == "so far:" { far = $3 }
        $1 == "fn" && $NF == "proved" { done++; far = 0 }
        END { if (name in place) print count, crates + 0, place[name], name, done + far }' - "$log"
}

# Tells how far the build is, until it is ended: on a terminal in one line that moves, else in a line for
# each minute, and for each crate where they go in turn.
tell_progress() {
    began=$(date +%s)
    last=
    while sleep 1 && kill -0 $$ 2>/dev/null; do
        read_log >"$log.read"
        read -r count done place name functions <"$log.read" || continue
        seconds=$(($(date +%s) - began))
        minutes=$((seconds / 60))
        if [ "$done" -gt 0 ]; then
            name="$done of $count crates proved"
        else
            name="crate $place of $count, $name"
        fi
        line="qc: $name: $functions functions checked, $minutes min $((seconds % 60)) s"
        if [ -t 2 ]; then
            printf '\r%-78s' "$line" >&2
        elif [ "$name $minutes" != "$last" ]; then
            printf '%s\n' "$line" >&2
        fi
        last="$name $minutes"
    done
}

end_build() {
    [ "$prover" = none ] || kill "${prover:-$!}" 2>/dev/null
    kill "$teller" 2>/dev/null && wait "$teller" 2>/dev/null
    [ -t 2 ] && printf '\r%-78s\r' '' >&2
    rm -rf "${stage:-$log.read}"
    rm -f "$lock" "$log.read"
}

# Whether earlier checks kept their work on most of the crates, so that few are left to be checked.
is_kept() {
    kept=0
    missing=0
    for name in $(crates); do
        if [ -d "$top/crates/$name/out/incremental" ]; then kept=$((kept + 1)); else missing=$((missing + 1)); fi
    done
    [ "$kept" -gt "$missing" ]
}

# Waits for the prover, so that a signal ends it. Until its number is known it is the last process that was started.
prove() {
    prover=
    "$@" </dev/null >>"$log" 2>&1 &
    prover=$!
    wait "$prover"
    proved=$?
    prover=none
    return "$proved"
}

# From nothing. `rt ci` proves crates side by side, those first that most others wait for, and gives what stands
# alone all processors. It does so for the program's crates alone, in a folder of their own.
prove_all() {
    stage=$(mktemp -d "${TMPDIR:-/tmp}/qc-build.XXXXXX") || return 1
    for name in $(crates); do
        mkdir -p "$stage/crates/$name" && for part in src specs proofs stdin stdout args status; do
            [ ! -e "$top/crates/$name/$part" ] || cp -R "$top/crates/$name/$part" "$stage/crates/$name/"
        done
        grep -E "^$name *(:| )" "$top/crates.txt" >>"$stage/crates.txt"
    done
    cp "$top/HANDLES" "$stage/"
    cd "$stage" && prove "$rt" ci && cp "$stage/crates/$name_of_program/out/$name_of_program" "$program"
}

# Over what earlier checks kept. These words are no command, so the new program ends at once with its usage line.
prove_changed() { cd "$crate" && prove "$rt" run -- build; }

build() {
    say "proving and building the program; ./qc --unproved answers meanwhile"
    rm -f "$program" "$stamp"
    : >"$log"
    stage=
    prover=none
    # Started before the traps are set: a signal that met the traps of a new process would be lost.
    tell_progress &
    teller=$!
    # A second signal does not cut the end short.
    trap end_build EXIT
    trap 'trap "" INT HUP TERM; exit 130' INT
    trap 'trap "" INT HUP TERM; exit 143' HUP TERM
    from=$PWD
    if is_kept; then prove_changed; else prove_all; fi
    cd "$from" || exit 1
    # The stamp is there before the lock is gone, so who waits finds the program built.
    [ -x "$program" ] && printf '%s\n' "$now" >"$stamp"
    trap - EXIT INT HUP TERM
    end_build
    if [ ! -x "$program" ]; then
        tail -n 5 "$log" >&2
        say "the program was not built; the checker's whole output is in $log"
        exit 1
    fi
    say "proved and built"
}

# Builds, or waits for the build that another ./qc is doing.
build_once() {
    find_rt
    mkdir -p "$crate/out" || exit 1
    if (set -C && echo $$ >"$lock") 2>/dev/null; then
        build
        return
    fi
    other=$(cat "$lock" 2>/dev/null)
    say "waiting for the build of another ./qc, process ${other:-unknown}"
    while [ -f "$lock" ]; do
        other=$(cat "$lock" 2>/dev/null)
        if [ -n "$other" ] && ! kill -0 "$other" 2>/dev/null; then
            rm -f "$lock"
        fi
        sleep 1
    done
}

# A path from the root on.
whole_path() {
    case $1 in
    /*) printf '%s\n' "$1" ;;
    *) printf '%s\n' "$PWD/$1" ;;
    esac
}

# Copies the scripts that stand behind `run` into a folder, under names in their order.
gather_scripts() {
    mkdir "$room/cases"
    number=100
    while [ $# -gt 1 ]; do
        shift
        case $1 in
        --dir) shift ;;
        -*) ;;
        *)
            number=$((number + 1))
            cp "$1" "$room/cases/$number-$(basename "$1")" || exit 1
            ;;
        esac
    done
}

# Makes a folder that is gone when the launcher ends.
make_room() {
    [ "${room-}" ] && return
    room=$(mktemp -d) || exit 1
    trap 'rm -rf "$room"' EXIT
    trap 'trap "" INT HUP TERM; exit 130' INT
    trap 'trap "" INT HUP TERM; exit 143' HUP TERM
}

# Runs the same program by `rt try`, which proves nothing, on the standard input or on each script that is named.
run_unproved() {
    find_rt
    say "nothing is proved of this run: rt try builds the program anew in each call, which takes about a minute;"
    say "the run may take 60 seconds and write 1 MiB, and writes nothing before it has ended"
    make_room
    if [ "$1" = run ]; then
        gather_scripts "$@"
        set -- run
        # rt try runs in the crate's folder, so the folder of the disks is told from the root on.
        [ "$serial" ] && set -- "$@" --serial
        [ "$trail" ] && set -- "$@" --trail
        [ "$place" ] && set -- "$@" --dir "$(whole_path "$place")"
    fi
    [ ! "$seeds" ] || set -- "$seeds" "$@"
    if [ "$scripts" -gt 0 ]; then set -- --cases "$room/cases" -- "$@"; else set -- -- "$@"; fi
    (cd "$crate" && "$rt" try "$@") 2>"$room/said"
    status=$?
    if ! grep -q '^\(case=.* \)*run=ended ' "$room/said"; then
        cat "$room/said" >&2
        say "rt try gave no answer"
        exit 1
    fi
    [ "$scripts" -gt 0 ] && tell_cases
    return "$status"
}

# Of each script of an unproved call how it ended, and where it is refused.
tell_cases() {
    sed -n 's/^case=\(.*\) run=ended status=\([0-9]*\) .*/\2 \1/p' "$room/said" | while read -r ended name; do
        [ "$ended" = 0 ] || say "$name ended with status $ended"
        [ "$ended" != 3 ] || tell_place "$room/cases/$name"
    done
    # The status is the first that is not 0.
    found=$(sed -n 's/^case=.* run=ended status=\([0-9]*\) .*/\1/p' "$room/said" | grep -vx 0 | head -n 1)
    [ "$status" != 0 ] || status=${found:-0}
}

# Says where in a script the refused place is.
tell_place() {
    command -v python3 >/dev/null && python3 "$top/tools/place.py" <"$1"
}

# Says why a disk failed or was refused, as far as a look at the folder tells, and at the script where it is a file.
tell_cause() {
    command -v python3 >/dev/null || return
    if [ -f /dev/stdin ]; then
        python3 "$top/tools/cause.py" "$1" "$place" </dev/stdin
    else
        python3 "$top/tools/cause.py" "$1" "$place" </dev/null
    fi
}

run_proved() {
    "$program" ${seeds:+"$seeds"} "$@"
}

# Writes the saved trail into a page, under the first name that is free here, and names it.
write_page() {
    number=1
    until (set -C && : >"qc-view-$number.html") 2>/dev/null; do
        if [ ! -e "qc-view-$number.html" ]; then
            say "no page can be written to $PWD"
            return 5
        fi
        number=$((number + 1))
    done
    name=qc-view-$number.html
    if { sed '/ id="trail">$/q' "$page" && base64 <"$room/trail" && sed '1,/ id="trail">$/d' "$page"; } >"$name"; then
        echo "$name"
    else
        rm -f "$name"
        say "the page was not written"
        return 5
    fi
}

# Runs a script by the function that is named, and keeps its saved trail in a page. Where there is none, what the
# program wrote is its fault.
view() {
    runs=$1
    shift 2
    make_room
    "$runs" run --trail "$@" >"$room/trail"
    status=$?
    case $status in
    0 | 8) write_page || status=$? ;;
    *) cat "$room/trail" ;;
    esac
    return "$status"
}

run() {
    if [ "${unproved-}" ] && { [ "$scripts" -gt 0 ] || ! is_built; }; then
        runs=run_unproved
    else
        [ "${unproved-}" ] && say "the proved program is built, and runs"
        until is_built; do build_once; done
        runs=run_proved
    fi
    if [ "$view" ]; then
        trail=yes
        view "$runs" "$@"
    else
        "$runs" "$@"
    fi
    status=$?
    # Of a script that comes through a pipe nothing is left to look at.
    [ "$status" = 3 ] && [ "$scripts" = 0 ] && [ -f /dev/stdin ] && tell_place /dev/stdin
    case $status in 6 | 7) [ "$place" ] && tell_cause "$status" ;; esac
    exit "$status"
}

if [ "${1-}" = --unproved ]; then
    unproved=yes
    shift
fi
take_program qc_prog
seeds=
if [ "${1-}" = turns ]; then
    is_seeds "${2-}" || refuse_words
    seeds=$2
    shift 2
    take_program qc_turns_prog
fi
case ${1-} in
-h | --help)
    [ $# -eq 1 ] && [ ! "$seeds" ] || refuse_words
    help
    ;;
*)
    read_words "$@" || refuse_words
    # Behind more seeds than one stands a run on no folder, whose reports are counted.
    case $seeds in
    *..*) [ "$1" = run ] && [ ! "$place" ] || refuse_words ;;
    esac
    run "$@"
    ;;
esac
