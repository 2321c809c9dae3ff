# Sourced by the scripts of this repository: where the kit leaves what it makes, and how C is linked with it. The kit runs on x86-64 and
# compiles for it, and so programs and archive run, also under valgrind, as they are.
top=$(cd "$(dirname "${BASH_SOURCE[0]}")/.." && pwd) || exit 2
c_flags=(-std=c11 -O2 -g -Wall -Wextra -Wpedantic -Werror -Iinclude)
advert=crates/advert/out/advert
replay=crates/replay/out/replay
library=crates/host/out/libhost.a

# is_current FILE: it is there, and no source of a crate is newer. What is made of the crates lies in their out/, and is no source.
is_current() { [ -e "$1" ] && [ -z "$(find "$top/crates" "$top/crates.txt" -name out -prune -o -type f -newer "$1" -print -quit)" ]; }

# archive: the archive, made where there is none or a source is newer. What commands of `rt` proved before, and kept, they do not prove again.
archive() {
    is_current "$library" && return
    mkdir -p target
    (cd crates/host && rt lib) > target/archive.log 2>&1 < /dev/null && is_current "$library" && return
    cat target/archive.log
    return 1
}

# c_program OUT FILE.c: a C program linked with the archive that is handed out
c_program() { gcc "${c_flags[@]}" "$2" "$library" -o "$1"; }

# kit: its folder
kit() { dirname "$(rt doc)"; }

# rattle_over VERB CRATE FOLDER.. -- WORD..: what `rt ci` calls of the kit to check or build a crate: from nothing, over the libraries
# NAME.rlib in these folders. Where `clock` is set, its words start the call.
clock=()
rattle_over() {
    local verb=$1 crate=$2 kit uses root=lib name folder words=()
    shift 2
    kit=$(kit)
    uses="std $(sed -nE "s/^$crate( staticlib)?:([^#]*).*/\2/p" crates.txt)"
    [ ! -f "crates/$crate/src/main.rt" ] || root=main
    ! grep -q "^$crate staticlib:" crates.txt || words=(--crate-type staticlib)
    set -- "$kit/rlibs" "$@"
    while [ "$1" != -- ]; do
        folder=$(cd "$1" && pwd) || return 1
        words+=(-L "dependency=$folder")
        for name in $uses; do [ ! -d "$folder/$name.rlib" ] || words+=(--extern "$name=$folder/$name.rlib"); done
        shift
    done
    shift
    (cd "crates/$crate" && "${clock[@]}" "$kit/bin/rattle" "$verb" --crate-name "$crate" "src/$root.rt" "${words[@]}" --jobs 1 --links "$crate=" \
        --antt-project "$kit/rattle/logic/antt-project.json" --logic-built "$kit/logic_built" "$@")
}
