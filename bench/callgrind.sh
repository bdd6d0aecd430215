# Counts the instructions of a call by valgrind's callgrind; bench/instructions and bench/starts source it. `bench` has the words that begin a call of the
# program. Sourcing it ends with status 3 where valgrind is not at hand.
command -v valgrind >/dev/null || { echo "bench/${0##*/}: valgrind is not on PATH: install it (Debian: valgrind)" >&2; exit 3; }

# batches ROW SIDES TIMES...: the instructions of each batch of so many calls, a line for each, those of the first side first. One program makes them all, in
# its function batch_of_calls: callgrind counts from 0 where that begins, and writes a file where it ends.
batches() {
    local out=target/bench/counted number
    rm -f "$out"*
    if ! valgrind --tool=callgrind --callgrind-out-file="$out" --zero-before=batch_of_calls --dump-after=batch_of_calls \
        "${bench[@]}" repeat "$@" >"$out.said" 2>&1; then
        cat "$out.said" >&2
        return 1
    fi
    for ((number = 1; ; number++)); do
        [ -e "$out.$number" ] || break
        sed -n 's/^summary: //p' "$out.$number"
    done
    rm -f "$out"*
}

# per_call ROW SIDES FIRST MORE: sets `counts`, the instructions of a call by each of the sides (numbers with commas between): what MORE calls add to FIRST ones.
# As many as FIRST come before and are not counted, since the Rust's first call takes more than the next. FIRST is 1, or 0 where a call takes minutes.
per_call() {
    local sides all batch
    IFS=, read -ra sides <<<"$2"
    mapfile -t all < <(batches "$1" "$2" "$3" "$3" $(($3 + $4)))
    [ "${#all[@]}" -eq $((3 * ${#sides[@]})) ] || { echo "bench/${0##*/}: row $1, sides $2: not counted" >&2; exit 1; }
    counts=()
    for ((batch = 0; batch < ${#all[@]}; batch += 3)); do
        counts+=($(((all[batch + 2] - all[batch + 1]) / $4)))
    done
}
