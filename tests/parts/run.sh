# How ./run behaves: exit status, what it says of itself, from where it may be called, and several at once. Sourced by
# tests/run; uses root, second, scratch, limit, judge. Each check is a case. The programs must be proved.

# The exit status of ./run in the folder of the pair, and that its output is what the program by itself writes, both ways.
ends_with() { # STATUS WHAT PROGRAM WORD..: standard input is empty
    local status=$1 what=$2 ended
    shift 2
    (cd "$pair" && exec timeout "$limit" "$root/run" "$@") >"$scratch/got" 2>"$scratch/said" </dev/null
    ended=$?
    (cd "$pair" && exec timeout "$limit" "${!1}" "${@:2}") >"$scratch/want" 2>"$scratch/want-said" </dev/null
    [ "$ended" = "$status" ] || echo "  ended with $ended"
    [ "$ended" = "$status" ] && cmp -s "$scratch/want" "$scratch/got" && cmp -s "$scratch/want-said" "$scratch/said"
    judge $? "./run $* ends with $status: $what"
}

status_of_gateway() {
    fresh_pair
    ends_with 0 'every header is answered' gateway
    "$second" gateway "$pair/rules.csv" "$pair/headers.csv" | cmp -s - "$scratch/got" && [ ! -s "$scratch/said" ]
    judge $? './run gateway prints the answers, and says nothing where nothing had to be proved'
    ends_with 0 'the files are named' gateway rules.csv headers.csv
    ends_with 0 'help was asked for' gateway --help
    headers '7,250\r\nx\r\n'
    ends_with 0 'a header line that is refused is answered in its place' gateway
    rules '9,2\r\n'
    ends_with 1 'a low is above its high' gateway
    rules '1,2,3\r\n'
    ends_with 1 'a line of the rules is not as stated' gateway
    fresh_pair
    { times 1025 '1,2\r\n'; } >"$pair/rules.csv"
    ends_with 1 'there are too many rules' gateway
    fresh_pair
    ends_with 1 'there are no rules' gateway nowhere.csv headers.csv
    ends_with 1 'the rules are a folder' gateway . headers.csv
    ends_with 1 'there are no headers' gateway rules.csv nowhere.csv
    ends_with 1 'the headers are a folder' gateway rules.csv .
    ends_with 2 'one word' gateway rules.csv
    ends_with 2 'three words' gateway rules.csv headers.csv more
    ends_with 2 'standard input is named twice' gateway - -
    (cd "$pair" && timeout "$limit" "$root/run" gateway >/dev/full 2>/dev/null </dev/null)
    [ $? = 1 ]
    judge $? './run gateway ends with 1 where the disk is full'
    (cd "$pair" && timeout "$limit" "$root/run" gateway >&- 2>/dev/null </dev/null)
    [ $? = 1 ]
    judge $? './run gateway ends with 1 where standard output is closed'
    timeout "$limit" "$root/run" gateway "$pair/rules.csv" - >/dev/null 2>&1 <&-
    [ $? = 1 ]
    judge $? './run gateway ends with 1 where its headers can not be read'
    bench_folder
    timeout "$limit" "$root/run" gateway "$scratch/bench/rules.csv" "$scratch/bench/headers.csv" 2>/dev/null </dev/null | head -n 1 >/dev/null
    [ "${PIPESTATUS[0]}" = 141 ]
    judge $? './run gateway ends with 141 where its reader goes away'
}

status_of_calls() {
    fresh_pair
    printf 'p2r 16 2 5\nr2p 3 2 5 0\nnonsense\n' | timeout "$limit" "$root/run" calls >"$scratch/got" 2>"$scratch/said"
    [ $? = 0 ] && printf 'ok 16 23\nrefused 11 0 0 run\nbad\n' | cmp -s - "$scratch/got" && [ ! -s "$scratch/said" ]
    judge $? './run calls ends with 0, refusals and bad lines among its answers'
    ends_with 0 'help was asked for' calls --help
    local word missing=''
    for word in check scan build choose layout lookup audit report independent side p2r r2p; do grep -q "^$word " "$scratch/got" || missing="$missing $word"; done
    [ -z "$missing" ] && grep -q 'D:FFFFFFFF' "$scratch/got"
    judge $? "./run calls --help says the words, and how D has flags (missing:$missing)"
    ends_with 2 'it takes no other word' calls lines.txt
    printf 'p2r 16 2 5\n' | timeout "$limit" "$root/run" calls >/dev/full 2>/dev/null
    [ "${PIPESTATUS[1]}" = 1 ]
    judge $? './run calls ends with 1 where the disk is full'
    timeout "$limit" "$root/run" calls >/dev/null 2>&1 <&-
    [ $? = 1 ]
    judge $? './run calls ends with 1 where standard input can not be read'
}

status_of_itself() {
    fresh_pair
    (cd "$pair" && "$root/run" --help >"$scratch/got" 2>"$scratch/said")
    [ $? = 0 ] && [ ! -s "$scratch/said" ] && grep -q '^gateway ' "$scratch/got" && grep -q '^calls ' "$scratch/got"
    judge $? './run --help ends with 0 and lists the programs'
    (cd "$pair" && "$root/run" >/dev/null 2>&1)
    [ $? = 2 ]
    judge $? './run alone ends with 2'
    (cd "$pair" && "$root/run" lookup >/dev/null 2>&1)
    [ $? = 2 ]
    judge $? './run with a crate that is no program ends with 2'
}

# What descriptors a program is given, and how it may end, tried with another program in its place.
status_is_heard() {
    local status="$root/scripts/with-status" heard
    "$status" sh -c 'printf 2 >&9'
    [ $? = 2 ]
    judge $? 'with-status ends with the digit that was told'
    "$status" true
    [ $? = 1 ]
    judge $? 'with-status ends with 1 where nothing was told'
    "$status" sh -c 'printf 0 >&9; kill -PIPE $$'
    [ $? = 141 ]
    judge $? 'with-status passes on that a signal ended the program'
    heard=$("$status" sh -c 'printf 0 >&9; echo out')
    [ $? = 0 ] && [ "$heard" = out ]
    judge $? 'with-status leaves standard output alone'
    if command -v script >/dev/null; then
        TERM=dumb script -qec "$(printf '%q ' "$status" sh -c '[ -t 0 ] && [ -t 1 ] && [ -t 2 ] && printf 0 >&9')" /dev/null </dev/null >/dev/null 2>&1
        judge $? 'with-status keeps a terminal a terminal for the program'
    fi
    if setpriv --pdeathsig TERM -- true 2>/dev/null; then
        mkfifo "$scratch/alive"
        "$status" sh -c 'echo up; exec sleep 60 9>&-' >"$scratch/alive" &
        exec 7<"$scratch/alive"
        IFS= read -r -t 20 heard <&7
        kill -KILL $!
        wait $! 2>/dev/null
        timeout 20 cat <&7 >/dev/null && [ "$heard" = up ]
        judge $? 'the program ends where with-status is killed'
        exec 7<&-
    fi
}

# From another folder, through links, and with CDPATH set.
run_from_anywhere() {
    local link=$scratch/links
    fresh_pair
    mkdir -p "$link/here"
    ln -s "$root/run" "$link/here/by_link"
    ln -s "$root" "$link/repository"
    "$second" gateway "$pair/rules.csv" "$pair/headers.csv" >"$scratch/want"
    (cd "$pair" && timeout "$limit" "$link/here/by_link" gateway </dev/null 2>&1) | cmp -s "$scratch/want" -
    judge $? './run works through a link to it'
    (cd "$pair" && timeout "$limit" "$link/repository/run" gateway </dev/null 2>&1) | cmp -s "$scratch/want" -
    judge $? './run works through a link to the repository'
    (cd "$link/repository" && CDPATH=.:.. timeout "$limit" ./run gateway "$pair/rules.csv" "$pair/headers.csv" </dev/null 2>&1) | cmp -s "$scratch/want" -
    judge $? './run works with CDPATH set'
    rm -rf "$link"
}

# Rounds of four at once; each answer is a case.
run_at_once() { # ROUNDS
    local round i
    fresh_pair
    "$second" gateway "$pair/rules.csv" "$pair/headers.csv" >"$scratch/want"
    for ((round = 1; round <= $1; round++)); do
        for i in 1 2 3 4; do
            (cd "$pair" && timeout "$limit" "$root/run" gateway >"$scratch/at-once-$i" 2>/dev/null </dev/null; echo "$?" >"$scratch/status-$i") &
        done
        wait
        for i in 1 2 3 4; do
            [ "$(cat "$scratch/status-$i")" = 0 ] && cmp -s "$scratch/want" "$scratch/at-once-$i"
            judge $? "four ./run gateway at once: the answer of run $i in round $round"
        done
    done
}

# Copies the repository, as far as ./run needs it, with the programs that were built, and without what rt keeps.
copy_repository() { # FOLDER
    mkdir -p "$1/target"
    tar -C "$root" --no-wildcards-match-slash --exclude 'crates/*/out' -cf - run scripts crates.txt crates | tar -C "$1" -xf -
    cp -R "$root"/target/{stamp,bin} "$1/target/"
}

# A repository that can't be written, where something has to be proved, says so. Root may write everywhere, so root tries this
# as nobody, if it can.
run_unwritable() {
    local drop=() copy=$scratch/unwritable
    copy_repository "$copy"
    rm -f "$copy/target/stamp/gateway"
    chmod 755 "$scratch"
    chmod -R a+rX,go-w "$copy"
    if [ "$(id -u)" = 0 ]; then drop=(setpriv --reuid=65534 --regid=65534 --clear-groups); else chmod -R a-w "$copy"; fi
    if "${drop[@]}" test -x "$(command -v rt)" 2>/dev/null; then
        "${drop[@]}" "$copy/run" gateway >"$scratch/got" 2>"$scratch/said" </dev/null
        [ $? = 1 ] && [ ! -s "$scratch/got" ] && grep -q "can't be written" "$scratch/said"
        judge $? './run says that it can not write'
    else
        echo 'run: the repository that may not be written is left out: nobody cannot call rt here'
    fi
    chmod -R u+w "$copy"
    rm -rf "$copy"
}

# A program that is not proved is not run, and the cause comes first, behind the names of the crates that are proved again: how many
# these are is by what this machine has kept.
run_unproved() {
    local copy=$scratch/unproved
    copy_repository "$copy"
    sed -i 's/^fn main(.*{$/& unknown();/' "$copy/crates/gateway/src/main.rt"
    "$copy/run" gateway >"$scratch/got" 2>"$scratch/said" </dev/null
    [ $? = 1 ] && [ ! -s "$scratch/got" ] && grep -v '^run: \(proving\|waiting\) ' "$scratch/said" | head -n 3 | grep -q 'main.rt.*error.*unknown'
    judge $? './run says why a program is not proved, and does not run it'
    rm -rf "$copy"
}

# The first command of the README prints what the README says.
run_as_printed() {
    sed -n '/^## Two commands/,$s/^    //p' "$root/README.md" | head -n 4 >"$scratch/printed"
    (cd "$root" && timeout "$limit" bash -c "$(head -n 1 "$scratch/printed")" </dev/null 2>&1) | tr -d '\r' | cmp -s <(tail -n 3 "$scratch/printed") -
    judge $? 'the first command of the README prints what it says'
}

compare_run() {
    # what is proved already is looked at once, so that nothing is new afterwards
    "$root/run" gateway --help >/dev/null 2>&1
    "$root/run" calls --help >/dev/null 2>&1
    status_of_itself
    status_is_heard
    status_of_gateway
    status_of_calls
    run_from_anywhere
    run_as_printed
    run_unwritable
    run_unproved
    run_at_once "$rounds"
    rm -rf "$scratch/messages"
}
