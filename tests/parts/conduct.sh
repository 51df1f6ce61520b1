# How the proved programs behave where the system or the user is at fault. Sourced by tests/run; uses second, calls,
# gateway, scratch, limit. Each check is a case. The texts on standard error are the programs' own.

# Counts one case by the status of the last command.
judge() { # STATUS WHAT
    if [ "$1" = 0 ]; then
        pass 1
    else
        echo "conduct: $2: FAILED"
        fail 1
    fi
}

# One line on standard error, and nothing on standard output.
says_one_line() { # COMMAND..
    timeout "$limit" "$@" >"$scratch/got" 2>"$scratch/said" </dev/null
    [ ! -s "$scratch/got" ] && [ "$(wc -l <"$scratch/said")" = 1 ]
}

# Ends, and says something on standard error, where nothing can be written.
says_disk_full() { # COMMAND..: standard input is the caller's
    timeout "$limit" "$@" >/dev/full 2>"$scratch/said"
    [ $? != 124 ] && [ -s "$scratch/said" ]
}

# Ends in time where the reader goes away after the first line.
ends_without_reader() { # COMMAND..: standard input is the caller's
    { timeout "$limit" "$@" 2>/dev/null; echo $? >"$scratch/status"; } | head -n 1 >/dev/null
    [ "$(cat "$scratch/status")" != 124 ]
}

conduct_calls() {
    "$second" edges lookup >"$scratch/lines"
    says_disk_full "$calls" <"$scratch/lines"
    judge $? 'calls says that the disk is full'
    ends_without_reader "$calls" <"$scratch/lines"
    judge $? 'calls ends when its reader goes away'
    timeout "$limit" "$calls" >"$scratch/got" 2>"$scratch/said" <&-
    [ $? != 124 ] && [ ! -s "$scratch/got" ]
    judge $? 'calls answers nothing where standard input is closed'
}

# A folder with the bench list and many header lines.
bench_folder() {
    mkdir -p "$scratch/bench"
    printf '7,7,100,100\r\n7,7,200,299\r\n8,8,0,999\r\n7,7,0,999\r\n0,9,0,999\r\n' >"$scratch/bench/rules.csv"
    yes $'7,250\r' | head -n 200000 >"$scratch/bench/headers.csv"
}

# A file that may not be read counts as empty. Root may read every file, so root runs this as nobody, if it can.
conduct_unreadable() {
    local drop=() folder=$scratch/unreadable
    mkdir -p "$folder"
    printf '7,7\r\n' >"$folder/rules.csv"
    printf '7\r\n' >"$folder/headers.csv"
    chmod 000 "$folder/headers.csv"
    if [ "$(id -u)" = 0 ]; then
        drop=(setpriv --reuid=65534 --regid=65534 --clear-groups)
        cp "$gateway" "$folder/gateway"
        chmod 755 "$scratch" "$folder" "$folder/gateway"
        if ! "${drop[@]}" "$folder/gateway" --help >/dev/null 2>&1; then
            echo 'conduct: the file that may not be read is left out: nobody cannot run gateway here'
            return
        fi
    else
        cp "$gateway" "$folder/gateway"
    fi
    (cd "$folder" && timeout "$limit" "${drop[@]}" ./gateway) >"$scratch/got" 2>/dev/null </dev/null
    printf 'rule,tests\r\n' | cmp -s - "$scratch/got"
    judge $? 'gateway takes a file that may not be read as empty'
}

# Files that come in pieces: both are pipes, and a read may answer less than was asked for.
conduct_pipes() {
    local folder=$scratch/pipes pair
    mkdir "$folder" "$scratch/edges"
    "$second" files "$scratch/edges"
    pair=$(find "$scratch/edges" -name '*-line-ends-at-65536')
    mkfifo "$folder/rules.csv" "$folder/headers.csv"
    (in_pieces <"$pair/rules.csv" | timeout "$limit" tee "$folder/rules.csv") >/dev/null 2>&1 &
    (in_pieces <"$pair/headers.csv" | timeout "$limit" tee "$folder/headers.csv") >/dev/null 2>&1 &
    (cd "$folder" && timeout "$limit" "$gateway") >"$scratch/got" 2>/dev/null </dev/null
    "$second" gateway "$pair/rules.csv" "$pair/headers.csv" | cmp -s - "$scratch/got"
    judge $? 'gateway reads its files from pipes, in pieces'
    # a program that never opened a file has left its writer waiting: opened once, the writer ends
    : 8<>"$folder/rules.csv" 9<>"$folder/headers.csv"
    rm -rf "$folder" "$scratch/edges"
}

conduct_gateway() {
    bench_folder
    timeout "$limit" "$gateway" --help >"$scratch/got" 2>"$scratch/said" </dev/null
    [ -s "$scratch/got" ] && [ ! -s "$scratch/said" ]
    judge $? 'gateway --help prints usage'
    says_one_line "$gateway" one
    judge $? 'gateway with one argument says one line on standard error alone'
    says_one_line "$gateway" one two three
    judge $? 'gateway with three arguments says one line on standard error alone'
    (cd "$scratch/bench" && says_disk_full "$gateway" </dev/null)
    judge $? 'gateway says that the disk is full'
    (cd "$scratch/bench" && ends_without_reader "$gateway" </dev/null)
    judge $? 'gateway ends when its reader goes away'
    "$second" gateway "$scratch/bench/rules.csv" "$scratch/bench/headers.csv" >"$scratch/want"
    (cd "$scratch/bench" && timeout "$limit" "$gateway" >"$scratch/got" 2>/dev/null <&-)
    cmp -s "$scratch/want" "$scratch/got"
    judge $? 'gateway does its work where standard input is closed'
    conduct_unreadable
    conduct_pipes
    conduct_messages
}
