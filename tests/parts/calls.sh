# Holds `calls` to the second program, line by line. Sourced by tests/run; uses second, calls, scratch, seed, limit.

# How many lines of each kind are drawn.
declare -A drawn_lines=(
    [ranges]=5000 [prefixes]=20000 [lists]=20000 [sorting]=20000 [choices]=40000 [lookup]=40000 [protocol]=10000
    [random]=40000 [large]=300
)

# Prints how many lines differ and the number of the first, parted by a blank. A line that is missing in one differs.
differing_lines() { # WANT GOT
    LC_ALL=C awk -v got="$2" '
        { there = (getline line < got) > 0; if (!there || line "" != $0 "") { count++; if (!first) first = NR } }
        END { while ((getline line < got) > 0) { NR++; count++; if (!first) first = NR } print count + 0, first + 0 }' "$1"
}

# Prints line N of a file, cut where it is long.
line_of() { sed -n "$1p" "$2" | LC_ALL=C cut -c 1-2000; }

# Prints the first line that differs, both answers, and the command that tries the line again.
show_line() { # LABEL INPUT WANT GOT FIRST
    local kept
    kept=$(kept_name)
    sed -n "$5p" "$2" >"$kept"
    echo "calls differs: $1, line $5"
    if [ "$(wc -c <"$kept")" -le 2000 ] && ! grep -qaP "[^\x20-\x7e]|'" "$kept"; then
        printf "  paste back: echo '%s' | tests/run --line\n" "$(cat "$kept")"
    else
        printf '  paste back: tests/run --line <%s\n' "${kept#"$root"/}"
    fi
    echo "  second: $(line_of "$5" "$3")"
    echo "  calls:  $(line_of "$5" "$4" | tr -d '\0')"
}

# Has both programs answer the lines of a file and compares every byte; each line is a case.
compare_lines() { # LABEL INPUT [FEEDER..]: the command that hands the file on; without one it is standard input
    local label=$1 input=$2 want=$scratch/want got=$scratch/got said=$scratch/said answers status lines differ first
    shift 2
    "$second" calls <"$input" >"$want" &
    answers=$!
    if [ $# -gt 0 ]; then
        "$@" <"$input" | timeout "$limit" "$calls" >"$got" 2>"$said"
    else
        timeout "$limit" "$calls" <"$input" >"$got" 2>"$said"
    fi
    status=$?
    wait "$answers" || { echo "the second program failed: $label"; fail 1; return; }
    lines=$(wc -l <"$want")
    if cmp -s "$want" "$got" && [ "$status" = 0 ]; then
        pass "$lines"
        return
    fi
    read -r differ first < <(differing_lines "$want" "$got")
    if [ "$differ" = 0 ]; then
        echo "calls: $label: the lines are the same, but it ended with status $status, or its last line has no end"
        differ=1
    else
        show_line "$label" "$input" "$want" "$got" "$first"
        echo "  $differ of $lines lines differ; status $status$(head -c 300 "$said" | sed 's/^/; it said: /')"
    fi
    pass $((lines > differ ? lines - differ : 0))
    fail "$differ"
}

# Hands a file on in pieces that end anywhere.
in_pieces() {
    local size
    for size in 1 2 3 61 4000 4096 4097 65000; do
        head -c "$size"
        sleep 0.02
    done
    cat
}

# Inputs that are no plain row of lines.
odd_inputs() {
    local input=$scratch/odd
    printf '' >"$input"
    compare_lines 'no input' "$input"
    printf '\n' >"$input"
    compare_lines 'one empty line' "$input"
    printf 'p2r 16 2 5' >"$input"
    compare_lines 'a last line without LF' "$input"
    printf 'p2r 16 2 5\ncheck 1' >"$input"
    compare_lines 'a last line cut short, without LF' "$input"
    printf 'p2r 16 2 5\n\ncheck 1 0\n ' >"$input"
    compare_lines 'a last line of one blank' "$input"
    { head -c 3000000 /dev/zero | tr '\0' 7; printf '\ncheck 1 0\n'; } >"$input"
    compare_lines 'a word of 3,000,000 bytes' "$input"
    { printf 'check 1 2'; yes ' 7' | head -n 500000 | tr -d '\n'; printf '\ncheck 1 0\n'; } >"$input"
    compare_lines 'a line of 500,000 words' "$input"
    { printf 'check 1 0'; head -c 3000000 /dev/zero | tr '\0' ' '; printf '\ncheck 1 0\n'; } >"$input"
    compare_lines '3,000,000 blanks' "$input"
    { printf 'check 1:'; head -c 3000000 /dev/zero | tr '\0' 1; printf ' 0\ncheck 1 2 5 5\n'; } >"$input"
    compare_lines '3,000,000 flags' "$input"
    "$second" edges lists >"$input"
    compare_lines 'lists, edges, in pieces' "$input" in_pieces
}

# 02, W8, W4 and W5: lines with dates, with choices of partitions, and with stored smallest rule numbers, each with the
# answer that it must have. The second program has no say here.
worked_lines() {
    local line want got
    while IFS= read -r line && IFS= read -r want; do
        got=$(printf '%s\n' "$line" | timeout "$limit" "$calls" 2>/dev/null)
        if [ "$got" = "$want" ]; then
            pass 1
        else
            printf "calls: echo '%s' | tests/run --line: not as it was worked out\n  worked: %s\n  calls:  %s\n" "$line" "$want" "$got"
            fail 1
        fi
    done <<'END'
build 1:10000000 4 1 5 5 9 14 9 9 9 9 9 9 9 9 9 9 9 9 9 9
ok 1 table 2 1 1 0 1 0 2 0 0 0 0 1 1 2
check 1:10000000 2 5 5
refused 4 0 0
check 1:01111111 2 5 5
ok 1
independent 1:10000000 4 1 5 5 9
ok yes
side 1:10000000 0 5 6 5
ok both
side 1:10000000 0 0 0 0
ok above
layout 1 6 0 9 0 9 0 9 3 2 0 1 19 7 7 7 7 7 7 7 7 7 7 7 7 7 7 7 7 7 7 7
ok 3 table 3 1 3 1 2 0 0 1 2 3 1 2 0 0 1 2 1 2 3
audit 1 6 0 9 0 9 0 9 19 3 1 3 1 2 0 0 1 2 3 1 2 0 0 1 2 1 2 3
ok yes
audit 1 6 0 9 0 9 0 9 19 3 1 3 1 2 0 0 1 2 3 65535 2 0 0 1 2 1 2 3
ok no
lookup 1 6 0 9 0 9 0 9 19 3 1 3 1 2 0 0 1 2 3 1 2 0 0 1 2 1 2 3 5 0 0 0 0 0 0 0
ok 0 2 plain
lookup 1 6 0 9 0 9 0 9 19 3 1 3 1 2 0 0 1 2 3 65535 2 0 0 1 2 1 2 3 5 0 0 0 0 0 0 0
ok 0 2 plain
lookup 1 6 0 9 0 9 0 9 19 3 1 3 1 2 0 0 1 2 3 1 1 0 0 1 2 1 2 3 5 0 0 0 0 0 0 0
ok 0 3 plain
lookup 1 6 0 9 0 9 0 9 19 3 1 3 1 3 0 0 1 2 3 1 2 0 0 1 2 1 2 3 5 0 0 0 0 0 0 0
ok 0 2 plain
lookup 1 6 0 9 0 9 0 9 19 3 1 3 1 3 0 0 1 2 3 1 1 0 0 1 2 1 2 3 5 0 0 0 0 0 0 0
refused 6 0 0
report 1 6 0 9 0 9 0 9 19 3 1 3 1 2 0 0 1 2 3 1 2 0 0 1 2 1 2 3 0
ok 1 1
report 1 6 0 9 0 9 0 9 19 3 1 3 1 2 0 0 1 2 3 65535 2 0 0 1 2 1 2 3 0
refused 6 0 0
choose 1 6 0 9 0 9 0 9 3 7 7 7
ok 3 run 0 1 2
choose 1 0 0
ok 0 run
choose 1 0 1 7
refused 15 0 0 run 7
layout 1 0 0 4 7 7 7 7
ok 0 table 0 1 0 0
layout 1 0 1 0 4 7 7 7 7
refused 15 0 0 table 7 7 7 7
layout 1 6 7 7 7 7 7 7 3 0 3 0 19 1 1 1 1 1 1 1 1 1 1 1 1 1 1 1 1 1 1 1
refused 16 0 0 table 1 1 1 1 1 1 1 1 1 1 1 1 1 1 1 1 1 1 1
layout 1 6 7 7 7 7 7 7 3 0 0 2 19 1 1 1 1 1 1 1 1 1 1 1 1 1 1 1 1 1 1 1
refused 17 0 0 table 1 1 1 1 1 1 1 1 1 1 1 1 1 1 1 1 1 1 1
layout 1 6 7 7 7 7 7 7 3 1 1 1 19 1 1 1 1 1 1 1 1 1 1 1 1 1 1 1 1 1 1 1
refused 17 0 0 table 1 1 1 1 1 1 1 1 1 1 1 1 1 1 1 1 1 1 1
layout 1 6 7 7 7 7 7 7 3 0 0 1 19 1 1 1 1 1 1 1 1 1 1 1 1 1 1 1 1 1 1 1
refused 18 0 0 table 1 1 1 1 1 1 1 1 1 1 1 1 1 1 1 1 1 1 1
END
}

# Writes lines by the second program and compares the answers.
compare_written() { # LABEL WORDS..
    local label=$1
    shift
    if "$second" "$@" >"$scratch/lines"; then
        compare_lines "$label" "$scratch/lines"
    else
        echo "the second program writes no lines: $label"
        fail 1
    fi
}

# The edges of a kind, if it has any, and its drawn lines.
compare_kind() { # KIND
    local began=$SECONDS
    case $1 in
    random | large) ;;
    *) compare_written "$1, edges" edges "$1" ;;
    esac
    compare_written "$1, seed $seed" cases "$seed" "${drawn_lines[$1]}" "$1"
    if [ "$1" = protocol ]; then odd_inputs; worked_lines; fi
    echo "calls: $1 done, ${drawn_lines[$1]} lines drawn ($((SECONDS - began)) s)"
}

# What is stored with the crate `calls` is what the second program stores and answers; `rt` holds the proved one to it.
compare_stored() {
    local crate=$root/crates/calls
    if "$second" stored >"$scratch/lines" && cmp -s "$scratch/lines" "$crate/stdin"; then
        pass 1
    else
        echo 'calls: the stored stdin is not what the second program stores: see tests/write-stored'
        fail 1
    fi
    if "$second" calls <"$crate/stdin" >"$scratch/want" && cmp -s "$scratch/want" "$crate/stdout"; then
        pass 1
    else
        echo 'calls: the stored stdout is not what the second program answers: see tests/write-stored'
        fail 1
    fi
}
