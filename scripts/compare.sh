# Sourced by tests/compare, tests/from_c and ./fuzz: the same script through the box and through the second program.
# SECOND names another second program, to see the comparison fail.
. scripts/machine.sh
box=("$replay")
second=${SECOND:-second/target/release/second}
generate=second/target/release/generate
room=$(mktemp -d) || exit 2
trap 'rm -rf "$room"' EXIT
total=0

# both SCRIPT: what each of them writes, in $room/box and $room/second; fails where that differs
both() {
    "${box[@]}" < "$1" > "$room/box" || echo "(the box ended with $?)" >> "$room/box"
    "$second" < "$1" > "$room/second" || echo "(the second program ended with $?)" >> "$room/second"
    cmp -s "$room/box" "$room/second"
}

# order_lines SCRIPT: the lines of it that are orders, each of which is answered; orders SCRIPT: how many
order_lines() { LC_ALL=C grep -a '^[^#]' "$1"; }
orders() { order_lines "$1" | wc -l; }

# answers FILE: what was written, one line for each order: the lines of a `piece`, from its first `packet` to `held`, stand in one
answers() {
    LC_ALL=C awk '
        { answer = goes_on ? answer " / " $0 : $0; goes_on = /^packet / || goes_on && !/^held / }
        !goes_on { print answer }
        END { if (goes_on) print answer }' "$1"
}

# compared NAME WORD..: the script that the generator writes for these words; its orders are counted in $total
compared() {
    local name=$1
    shift
    "$generate" "$@" > "$room/script"
    total=$((total + $(orders "$room/script")))
    both "$room/script" && return
    answers "$room/box" > "$room/box.answers"
    answers "$room/second" > "$room/second.answers"
    diff -a "$room/box.answers" "$room/second.answers" > "$room/differing"
    echo "differs: $name; the first answers that do, of the box (<) and of the second program (>):"
    head -n 6 "$room/differing"
    echo "the first of them at the order: $(order_lines "$room/script" | sed -n "$(sed -n '1s/[^0-9].*//p' "$room/differing")p")"
    exit 1
}

# walked SEED..: the sweep, and 5,000 orders of each seed
walked() {
    local seed
    compared 'the sweep' sweep
    for seed; do compared "seed $seed" "$seed" 5000; done
    echo "$total orders compared, every line the same"
}

# enough TEST: as many orders were compared as docs/PERFORMANCE.md says of that test, or more
enough() {
    local said
    said=$(sed -nE "s;^\\| \`$1\` \\|.*\\| ([0-9,]+) \\|\$;\1;p" docs/PERFORMANCE.md | tr -d ,)
    [ "$total" -ge "${said:-$((total + 1))}" ] && return
    echo "$total orders were compared, and docs/PERFORMANCE.md says ${said:-no number} of $1"
    return 1
}
