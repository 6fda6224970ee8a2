#!/bin/sh
# Refuses each request for memory of some commands in turn, and prints a table: for how many of them the
# answer was status 8 with no output, for how many the whole text with its status, and for how many
# another answer. It ends with 0 where there is no other one.
#
#     bench/failing/failing.sh [--short] [PROGRAM]
#
# PROGRAM is crates/mj/out/mj where none is named. With --short the first five requests of each command are
# refused, the last one, and every 23rd between; and the tape that is too large is left out. Words that the
# program doesn't know (check, inverse, --ball) are told and left out.
set -eu
export LC_ALL=C
usage() { sed -n '2,/^set/{/^set/d;s/^# \{0,1\}//;p;}' "$0"; }
case ${1:-} in
    -h | --help) usage; exit 0 ;;
esac
short=
if [ "${1:-}" = --short ]; then
    short=yes
    shift
fi
mj=${1:-$(dirname "$0")/../../crates/mj/out/mj}
if [ ! -x "$mj" ]; then
    echo "failing: $mj isn't built: run rt ci" >&2
    exit 2
fi
mj=$(realpath "$mj")
cd "$(dirname "$0")/../.."
room=$(mktemp -d)
trap 'rm -rf "$room"' EXIT
gcc -O2 -shared -fPIC -o "$room/failing.so" bench/failing/failing.c
others=0

# Runs the program with the words, and the request for memory of this number refused.
run_failing() {
    number=$1
    shift
    rm -f "$room/count"
    status=0
    FAIL_NTH=$number FAIL_COUNT=$room/count LD_PRELOAD=$room/failing.so "$mj" "$@" \
        > "$room/out" 2> "$room/error" < /dev/null || status=$?
}

# Whether the request of this number, of so many, is refused.
is_tried() {
    [ -z "$short" ] || [ "$1" -le 5 ] || [ "$1" -eq "$2" ] || [ $(($1 % 23)) -eq 0 ]
}

# Refuses each request of a command in turn, and prints its row.
try() {
    name=$1
    shift
    run_failing 0 "$@"
    whole=$status
    mv "$room/out" "$room/whole"
    if [ ! -f "$room/count" ]; then
        echo "failing: $mj doesn't count its requests: is it linked with a C library of its own?" >&2
        exit 1
    fi
    all=$(cat "$room/count")
    none=0
    same=0
    other=0
    number=0
    while [ "$number" -lt "$all" ]; do
        number=$((number + 1))
        is_tried "$number" "$all" || continue
        run_failing "$number" "$@"
        if [ -s "$room/error" ]; then
            other=$((other + 1))
        elif [ "$status" -eq 8 ] && [ ! -s "$room/out" ]; then
            none=$((none + 1))
        elif [ "$status" -eq "$whole" ] && cmp -s "$room/out" "$room/whole"; then
            same=$((same + 1))
        else
            other=$((other + 1))
        fi
    done
    others=$((others + other))
    echo "| $name | $whole | $all | $none | $same | $other |"
}

# Whether the program takes these words, told where it doesn't.
knows() {
    status=0
    "$mj" "$@" > "$room/out" 2>&1 < /dev/null || status=$?
    [ "$status" -ne 2 ] || echo "failing: left out, since the program refuses the words: $*" >&2
    [ "$status" -ne 2 ]
}

cat examples/driven.toml > "$room/two.toml"
printf '[[motor]]\njoint = "z"\n' >> "$room/two.toml"
printf '1,2\n3,4\n5,6\n' > "$room/whole.csv"
printf '1,2\n3,4\n' > "$room/short.csv"
printf '1,2\n3,4\n5,x\n' > "$room/number.csv"
printf '1,2,3\n' > "$room/wide.csv"
head -c 67108865 /dev/zero | tr '\0' '\n' > "$room/large.csv"

echo "| Command | Status | Requests | Status 8, no output | The whole text | Another answer |"
echo "|---|---|---|---|---|---|"
try "first slide" run --model examples/slide.toml --steps 3
for tape in whole short number wide ${short:-large}; do
    [ "$tape" != yes ] || continue
    try "two motors, $tape tape" run --model "$room/two.toml" --steps 3 --tape "$room/$tape.csv"
done
for workers in 1 2 8; do
    try "batch of eight tapes, $workers workers" batch --model examples/driven.toml --steps 3 \
        --tape examples/driven.csv --tape examples/driven.csv --tape examples/driven.csv \
        --tape examples/driven.csv --tape examples/driven.csv --tape examples/driven.csv \
        --tape examples/driven.csv --tape examples/driven.csv --workers "$workers"
done
try "contacts, dual" run --model examples/chain.toml --steps 80 --tape examples/chain.csv --dual yes
try "generated model" gen --links 2 --seed 7
try "bench" bench --links 2 --seed 7 --steps 3
try "refused model" run --model "$room/wide.csv" --steps 3
if knows run --model missing --steps 1 --ball yes; then
    try "contacts, dual, balls" run --model examples/ball.toml --steps 60 --dual yes --ball yes
fi
if knows inverse --model missing --steps 1; then
    try "inverse" inverse --model examples/ball.toml --steps 60
fi
if knows check --dual missing; then
    "$mj" run --model examples/ball.toml --steps 60 --dual yes > "$room/whole.dump"
    head -n 600 "$room/whole.dump" > "$room/cut.dump"
    sed -n 's/^#> //p' tests/cases/friction/each/dual > "$room/friction.dump"
    try "check" check --dual "$room/whole.dump"
    try "check of a dump that was cut off" check --dual "$room/cut.dump"
    try "check in format 2" check --dual "$room/friction.dump"
    try "check of no dump" check --dual "$room/wide.csv"
fi
[ "$others" -eq 0 ]
