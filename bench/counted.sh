# What `rate`, `play`, `files`, `sheets`, `schedule` and `processes` share: the program that is measured, a room for what is made, and callgrind. It is read by them and
# is no script of its own.

room=$(mktemp -d)
trap 'rm -rf "$room"' EXIT

program=${1:-crates/focusd/out/focusd}
[ -x "$program" ] || {
    echo "there is no $program: run \`rt run\` in crates/focusd, or give a program" >&2
    exit 1
}

# STATUS INPUT WORD..: runs the program under callgrind; leaves what it writes in $room/written and its costs in $room/trace,
# and tells its instructions.
counted() {
    local status=0
    valgrind --tool=callgrind --callgrind-out-file="$room/trace" "$program" "${@:3}" <"$2" 2>"$room/told" >"$room/written" ||
        status=$?
    [ "$status" = "$1" ] || {
        cat "$room/told" >&2
        exit 1
    }
    sed -n 's/.*Collected : //p' "$room/told"
}

# LOAD NUMBER: where DEAREST names a file, it gets the three dearest functions of the last run, each with what it takes of 100
# instructions without those that it calls.
dearest() {
    [ -z "${DEAREST-}" ] || callgrind_annotate --threshold=100 "$room/trace" | awk -v name="$1" '
        / file:function$/ { listed = 1; next }
        listed && told < 3 && match($0, /\( *[0-9.]+%\)/) {
            share = substr($0, RSTART + 1, RLENGTH - 3); called = substr($0, RSTART + RLENGTH)
            sub(/^ *[^ ]*\?\?\?:/, "", called); sub(/^ */, "", called); sub(/ \[[^]]*\]$/, "", called)
            print name, share + 0, called
            told++
        }' >>"$DEAREST"
}
