# Sourced by ./advert, ./replay, ./fuzz and ./bench: run a program of this repository on a file or on standard input. The program is
# built the first time, and again when a source is newer than it: what it needs is proved first, one line for each crate.
. "$here/scripts/machine.sh"

# is_built PROGRAM
is_built() { is_current "$here/crates/$1/out/$1"; }

# build PROGRAM: what was proved before and has not changed is not proved again. `rt run` runs the program too, here on nothing.
build() {
    local log=$here/target/$1.build.log
    mkdir -p "$here/target"
    echo "$1 is not built yet: proving it and all that it needs, which takes some minutes once" >&2
    (cd "$here/crates/$1" && rt run < /dev/null 2>&1 > /dev/null) | tee "$log" | grep --line-buffered '^rt: ' >&2
    grep -q '^rt: running ' "$log" && touch "$here/crates/$1/out/$1" && return
    echo "$1 could not be built; $log says why" >&2
    return 1
}

# run_on PROGRAM [FILE]: the exit status is the program's, 2 for a wrong call, 1 where it could not be built
run_on() {
    local name=$1
    shift
    if [ $# -gt 1 ]; then
        echo "usage: ./$name [FILE]" >&2
        exit 2
    fi
    if [ $# -eq 1 ]; then
        if [ ! -r "$1" ] || [ -d "$1" ]; then
            echo "$name: cannot read $1" >&2
            exit 2
        fi
        exec < "$1"
    fi
    is_built "$name" || build "$name" || exit 1
    "$here/crates/$name/out/$name"
}
