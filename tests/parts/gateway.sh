# Holds `gateway` to the second program, on file pairs. Sourced by tests/run; uses second, gateway, scratch, seed,
# limit.

drawn_pairs=250

# Prints a short file in a form that a shell reads back.
quoted_file() { # FILE
    if [ ! -f "$1" ]; then
        ls -d "$1" >/dev/null 2>&1 && echo 'a folder' || echo 'missing'
    elif [ "$(wc -c <"$1")" -le 400 ] && ! grep -qaP '\x00' "$1"; then
        local text
        text=$(cat "$1"; printf x)
        printf '%q\n' "${text%x}"
    else
        echo "$(wc -c <"$1") bytes"
    fi
}

# Prints what a program writes, cut where it is long.
shown() { head -c 600 | od -An -c | head -n 12 | sed 's/^/    /'; }

# Runs both programs on a folder with rules.csv and headers.csv, and prints what each writes.
show_pair() { # FOLDER
    echo '  second:'
    "$second" gateway "$1/rules.csv" "$1/headers.csv" | shown
    echo '  gateway:'
    (cd "$1" && exec timeout "$limit" "$gateway") 2>&1 </dev/null | shown
}

# Shows a pair that differs; it is kept for another try.
show_difference() { # HOW STATUS FOLDER
    local kept
    kept=$(kept_name)
    cp -R "$3" "$kept"
    echo "gateway differs: $(basename "$3"), $1, status $2"
    echo "  rules.csv:   $(quoted_file "$3/rules.csv")"
    echo "  headers.csv: $(quoted_file "$3/headers.csv")"
    echo "  try again: tests/run --pair ${kept#"$root"/}"
    show_pair "$3"
}

# Runs every pair below a folder in its own folder without arguments, and from elsewhere with two; each run is a case.
compare_pairs() { # LABEL FOLDER
    local results=$scratch/results runs same how status folder
    runs=$((2 * $(find "$2" -mindepth 1 -maxdepth 1 -type d | wc -l)))
    find "$2" -mindepth 1 -maxdepth 1 -type d -print0 | sort -z |
        xargs -0 -n 8 -P 2 "$root/tests/parts/pair" "$second" "$gateway" "$limit" >"$results"
    same=$(grep -c '^same$' "$results")
    pass "$same"
    fail $((runs - same))
    if grep -q '^differs' "$results"; then
        read -r _ how status folder < <(grep '^differs' "$results" | sort -k 4 | head -n 1)
        show_difference "$how" "$status" "$folder"
    fi
    echo "gateway: $1: $same of $runs runs the same"
}

compare_gateway() {
    mkdir "$scratch/edges" "$scratch/drawn"
    if ! "$second" files "$scratch/edges" || ! "$second" files "$scratch/drawn" "$seed" "$drawn_pairs"; then
        echo 'the second program writes no file pairs'
        fail 1
        return
    fi
    compare_pairs edges "$scratch/edges"
    compare_pairs "$drawn_pairs pairs drawn from seed $seed" "$scratch/drawn"
    rm -rf "$scratch/edges" "$scratch/drawn"
}
