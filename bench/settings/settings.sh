#!/bin/sh
# Runs all cases of tests/cases under other settings of the system, and compares what each run prints and
# its status with those under the usual ones: stacks of 256 KiB up to unlimited, another locale, another
# time zone, no environment, no standard input, and from 1 to 64 workers. It prints a table, and ends with 0
# where all are the same bytes.
#
#     bench/settings/settings.sh [--short]
#
# It runs crates/mj/out/mj and mj.by-rattle beside it, which rt ci leaves. With --short the two ends of the
# stacks and of the workers are tried alone.
set -eu
case ${1:-} in
    -h | --help) sed -n '2,/^set/{/^set/d;s/^# \{0,1\}//;p;}' "$0"; exit 0 ;;
esac
stacks="256 512 1024 8192 65536 unlimited"
workers="1 2 3 5 8 16 33 64"
if [ "${1:-}" = --short ]; then
    stacks="256 unlimited"
    workers="1 64"
fi
cd "$(dirname "$0")/../.."
room=$(mktemp -d)
trap 'rm -rf "$room"' EXIT
mkdir "$room/usual"
if ! .ci/cases "$room/usual" > "$room/log"; then
    cat "$room/log"
    echo "settings: the cases fail under the usual settings"
    exit 1
fi
runs=$(ls "$room/usual" | wc -l)
failed=0

# Runs all cases by a command, and compares.
try() {
    name=$1
    shift
    mkdir "$room/other"
    if .ci/cases "$room/other" "$@" > "$room/log" && diff -r "$room/usual" "$room/other" > "$room/diff"; then
        echo "| $name | $runs | the same |"
    else
        echo "| $name | $(ls "$room/other" | wc -l) | others |"
        head -n 20 "$room/log"
        [ ! -f "$room/diff" ] || head -n 20 "$room/diff"
        failed=$((failed + 1))
    fi
    rm -rf "$room/other" "$room/diff"
}

# Whether the system has a locale, told where it hasn't: it then gives the plain one.
locale_note() {
    locale -a 2> /dev/null | grep -qix "$1" || echo ", which isn't installed"
}

echo "| Setting | Runs | Bytes and statuses |"
echo "|---|---|---|"
echo "| the usual | $runs | |"
for size in $stacks; do
    try "stack: $size (KiB)" "$PWD/bench/settings/with-stack" "$size"
done
try "the locale tr_TR.UTF-8$(locale_note tr_TR.utf8)" env LC_ALL=tr_TR.UTF-8 LANG=tr_TR.UTF-8
try "the time zone Asia/Kathmandu" env TZ=Asia/Kathmandu
try "no environment" env -i
try "no standard input" "$PWD/bench/settings/without-input"
for count in $workers; do
    try "workers: $count" "$PWD/bench/settings/with-workers" "$count"
done
[ "$failed" -eq 0 ]
