# Read by bin/step, bin/make and bench/run: how a proved program is built, and the words of a call.

# What messages begin with.
me=${0##*/}

tell() { printf '%s: %s\n' "$me" "$*" >&2; }

die() { tell "$*"; exit 2; }

# ---- building ----

# The crates of this repository that a program is made of, a line for each: each behind those that it uses, the program
# last.
list_crates() { # NAME
    awk -v name="$1" '
        function visit(crate,    names, n, i) {
            if (!(crate in needs) || crate in seen) return
            seen[crate] = 1
            n = split(needs[crate], names, " ")
            for (i = 1; i <= n; i++) visit(names[i])
            print crate
        }
        { sub(/#.*/, "") }
        split($0, part, ":") == 2 { split(part[1], words, " "); needs[words[1]] = part[2] }
        END { visit(name) }' "$root/crates.txt"
}

# The first source that is newer than a file. What the toolchain keeps in a crate's out/ is no source; that folder comes
# and goes, which changes the crate's own folder.
find_newer() { # FILE
    find "$root/crates" "$root/crates.txt" -path "$root/crates/*/out" -prune -o \
        \( ! -type d -o -path "$root/crates/*/*" \) -newer "$1" -print | head -n 1
}

# Says on standard error how many crates are proved so far: on a terminal in one line, which is rewritten, otherwise in
# a line for each quarter of them.
show_progress() { # PROVED CRATES
    if [ -t 2 ]; then
        [ "$1" -eq 0 ] || printf '\r' >&2
        printf '%s: %s of %s crates proved' "$me" "$1" "$2" >&2
    elif [ $((4 * $1 / $2)) -gt "$quarters" ]; then
        quarters=$((4 * $1 / $2))
        tell "$1 of $2 crates proved"
    fi
}

end_progress() {
    if [ -t 2 ]; then printf '\n' >&2; fi
}

# Proves a crate and, only if it is proved, builds it: a library for the crates above it, or the program. The toolchain
# also runs the program, here on its stored input: what it prints is dropped, and the toolchain tells on standard error.
build_crate() { # CRATE PROGRAM
    cd "$root/crates/$1" || return
    if [ "$1" = "$2" ]; then rt run <stdin >/dev/null; else rt lib </dev/null; fi
}

# What the prover said of the crate that failed: the last lines that say why, or the last of all, where none does.
show_failure() { # LOG
    awk '
        function show(line, count,    i) {
            for (i = count > 12 ? count - 11 : 1; i <= count; i++) print line[i]
        }
        /^== / { title = $0; lines = reasons = 0; next }
        /: proved$/ || /^rt: chose / || /^rt: [^ ]+: begins with / { next }
        { line[++lines] = $0 }
        /^rt: / || /^rattle.*: / || /error(:|\[)/ || /: it is not proved that / || /: (not proved|no proof)/ {
            reason[++reasons] = $0
        }
        END {
            print title
            if (reasons) show(reason, reasons); else show(line, lines)
        }' "$1" >&2
}

# Proves and builds a program, where it is not there or older than a source; its place goes to `program`. What the
# prover says goes to target/NAME.log.
build_program() { # NAME
    program=$root/target/bin/$1 built=$root/target/$1.built log=$root/target/$1.log
    if [ -f "$program" ] && [ -f "$built" ] && [ -z "$(find_newer "$built")" ]; then return; fi
    command -v rt >/dev/null || die 'rt is not on the path: the Rattle toolchain is needed to build the program'
    crates=$(list_crates "$1")
    [ -n "$crates" ] || die "crates.txt lists no crate $1"
    count=$(printf '%s\n' "$crates" | wc -l)
    count=$((count))
    tell "building the program: the $count crates that it is made of are proved first, which takes some minutes"
    # A source that changes during the build is newer than `begun`.
    begun=$built.begun
    if ! mkdir -p "$root/target/bin" || ! touch "$begun" || ! printf '' >"$log"; then
        die "cannot write to $root/target"
    fi
    proved=0 quarters=0
    show_progress "$proved" "$count"
    for crate in $crates; do
        printf '== %s\n' "$crate" >>"$log"
        if ! (build_crate "$crate" "$1") >>"$log" 2>&1; then
            end_progress
            show_failure "$log"
            die "the program was not built; all that the prover said is in $log"
        fi
        proved=$((proved + 1))
        show_progress "$proved" "$count"
    done
    end_progress
    # In two steps, since the program may be running.
    if ! cp "$root/crates/$1/out/$1" "$program.new" || ! mv "$program.new" "$program"; then
        die "cannot write to $root/target"
    fi
    mv "$begun" "$built"
}

# ---- a call ----

# Takes the words of a call: --help, whose text the function `help` prints, or the name of one file at most, which
# becomes standard input; `input` is what messages call it.
take_words() { # WORD..
    input='standard input'
    case ${1-} in
    -h | --help)
        help || exit 2
        exit 0
        ;;
    --) shift ;;
    -?*) die "unknown option $1; see --help" ;;
    esac
    [ $# -le 1 ] || die 'one file at most; see --help'
    if [ $# -eq 1 ]; then
        input=$1
        read_from "$1"
    fi
}

# A file that is named becomes standard input.
read_from() { # FILE
    [ -e "$1" ] || die "cannot read $1: there is no such file"
    [ ! -d "$1" ] || die "cannot read $1: it is a directory"
    [ -r "$1" ] || die "cannot read $1: permission denied"
    exec <"$1"
}

# How a program or `cat` ended: 141 means that the reader of its output stopped early, and is passed on without a
# message.
expect_end() { # STATUS MESSAGE
    case $1 in
    0) ;;
    141) exit 141 ;;
    *) die "$2" ;;
    esac
}
