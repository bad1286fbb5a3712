# What the commands of this folder share: usage, input, and programs that are proved and built before they first run.
# A command sets `name`, `usage` and `example` and sources this file.
set -u
top=$(dirname -- "$(dirname -- "$(readlink -f -- "$0")")")
room=''
room_of_its_own() { [ -n "$room" ] || room=$(mktemp -d) || fail "no room for temporary files"; }
leave() { [ -z "$room" ] || rm -rf -- "$room"; }
trap leave EXIT
# what the command runs beside itself does not hear an interrupt
trap 'trap - INT TERM; leave; kill -TERM 0' INT TERM

fail() {
    echo "$name: $*" >&2
    exit 2
}

wrong() {
    echo "$name: $*" >&2
    echo "usage: $usage" >&2
    echo "$name: --help says more" >&2
    exit 2
}

# The one file that may be named becomes standard input; a person who types is told what is waited for.
input() { # WHAT FILE
    if [ -z "$2" ]; then
        [ ! -t 0 ] || echo "$name: reading $1 from the terminal, up to Ctrl-D (--help says more)" >&2
        return
    fi
    [ -e "$2" ] || fail "there is no file $2"
    [ ! -d "$2" ] || fail "$2 is a folder"
    [ -r "$2" ] || fail "$2 cannot be read"
    exec <"$2" || fail "$2 cannot be read"
}

# A program's crate, and the crates of this repository that it stands on.
way_to() { # PROGRAM
    echo "$1"
    for crate in $(sed -n "s/^$1:\(.*\)/\1/p" "$top/crates.txt"); do
        [ ! -d "$top/crates/$crate" ] || echo "$crate"
    done
}

# Whether a program is missing, or older than crates.txt or a file that it is made of.
old() { # PROGRAM
    [ -x "$top/crates/$1/out/$1" ] || return 0
    for crate in $(way_to "$1"); do
        find "$top/crates.txt" "$top/crates/$crate" -name out -prune -o \( -name '*.rt' -o -name '*.antt' -o -name crates.txt \) -newer "$top/crates/$1/out/$1" -print
    done | grep -q .
}

# Proves and builds a program, with the crates below it, by running it once on nothing.
build() { # MINUTES PROGRAM
    command -v rt >/dev/null || fail "the Rattle toolchain's rt is not on the path"
    room_of_its_own
    start=$(date +%s)
    echo "$name: proving the $(way_to "$2" | wc -l) crates that $2 is made of before it runs; from nothing that takes $1 minutes, and later runs start at once" >&2
    (cd -- "$top/crates/$2" && rt run) >"$room/built" 2>"$room/said" </dev/null || {
        cat -- "$room/said" >&2
        fail "$2 could not be built"
    }
    # rt leaves alone a program that a change did not concern
    touch -- "$top/crates/$2/out/$2"
    echo "$name: proved and built in $(($(date +%s) - start)) s" >&2
}

# Sees to it that programs are there and not older than what they are made of.
ready() { # MINUTES PROGRAM...
    minutes=$1
    shift
    for program in "$@"; do
        ! old "$program" || build "$minutes" "$program"
    done
}

run() { # PROGRAM
    "$top/crates/$1/out/$1"
}
