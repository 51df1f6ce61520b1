# What `gateway` says on standard error, line for line, and that standard output is the second program's all the same.
# Sourced by tests/run, called by conduct.sh; uses second, gateway, scratch, limit, judge. The texts are those of
# docs/MESSAGES.md.

# A folder with rules that stand and headers that are fine.
fresh_pair() {
    pair=$scratch/messages
    rm -rf "$pair"
    mkdir "$pair"
    printf '7,7,100,100\r\n7,7,200,299\r\n8,8,0,999\r\n7,7,0,999\r\n0,9,0,999\r\n' >"$pair/rules.csv"
    printf '7,250\r\n8,5' >"$pair/headers.csv"
}

# Runs gateway in the folder and compares both outputs; the lines are those of standard error.
says() { # WHAT LINE..
    local what=$1
    shift
    (cd "$pair" && timeout "$limit" "$gateway") >"$scratch/got" 2>"$scratch/said" </dev/null
    [ $# = 0 ] && : >"$scratch/want" || printf '%s\n' "$@" >"$scratch/want"
    if ! cmp -s "$scratch/want" "$scratch/said"; then
        echo "  wanted: $*"
        sed 's/^/  said:   /' "$scratch/said"
        false
    else
        "$second" gateway "$pair/rules.csv" "$pair/headers.csv" | cmp -s - "$scratch/got"
    fi
    judge $? "gateway says $what"
}

rules() { fresh_pair && printf "$1" >"$pair/rules.csv"; }
headers() { fresh_pair && printf "$1" >"$pair/headers.csv"; }
times() { local i; for ((i = 0; i < $1; i++)); do printf "$2"; done; }

messages_of_rules() {
    rules '1,2,3,4\r\n1,2,x,4\r\n'
    says 'which cell of which line is no number' 'gateway: rules.csv: line 2, cell 3: not a plain number from 0 to 4294967295'
    fresh_pair
    { times 699 '1,2,3,4\r\n'; printf '1,2,03,4\r\n1\r\n'; } >"$pair/rules.csv"
    says 'the first flaw, on line 700' 'gateway: rules.csv: line 700, cell 3: not a plain number from 0 to 4294967295'
    rules '1,2,3,4\r\n1,2,3,4\r\n1,2,3\r\n'
    says 'another count of cells' 'gateway: rules.csv: line 3: 3 cells, where line 1 has 4'
    rules '1,2,3,4\r\n1\r\n'
    says 'one cell' 'gateway: rules.csv: line 2: 1 cell, where line 1 has 4'
    rules '1,2,3\r\n'
    says 'an odd count of cells' 'gateway: rules.csv: line 1: 3 cells, where a rule has two for each field'
    fresh_pair
    { times 17 '1,'; printf '1\r\n'; } >"$pair/rules.csv"
    says 'more than sixteen cells' 'gateway: rules.csv: line 1: 18 cells, where a rule has at most 16'
    fresh_pair
    { times 65537 '1,'; printf '1\r\n'; } >"$pair/rules.csv"
    says 'more cells than are counted' 'gateway: rules.csv: line 1: 65535 or more cells, where a rule has at most 16'
    rules ''
    says 'that there is no line' 'gateway: rules.csv: no line, where each is a rule of 2 to 16 cells'
    rules '\r\n'
    says 'an empty line' 'gateway: rules.csv: line 1, cell 1: not a plain number from 0 to 4294967295'
    fresh_pair
    { times 4 '1,2,3,4\r\n'; printf '9,2,3,4\r\n'; } >"$pair/rules.csv"
    says 'a low above its high' 'gateway: rules.csv: line 5, field 1: low 9 is above high 2'
    fresh_pair
    { times 1025 '1,2\r\n'; } >"$pair/rules.csv"
    says 'too many rules' 'gateway: rules.csv: line 1025: more than 1,024 rules'
    rules '7,7,100,100\n7,7,200,299\n'
    says 'lines that end in LF' 'gateway: rules.csv: lines end in LF and must end in CR LF: try unix2dos rules.csv'
    rules '7,7,100,100\r7,7,200,299\r'
    says 'lines that end in CR' 'gateway: rules.csv: line 1, cell 4: not a plain number from 0 to 4294967295'
    fresh_pair
    rm "$pair/rules.csv"
    says 'that there are no rules' 'gateway: rules.csv: No such file or directory'
    mkdir "$pair/rules.csv"
    says 'that the rules are a folder' 'gateway: rules.csv: Is a directory'
}

messages_of_headers() {
    fresh_pair
    says 'nothing where nothing is wrong'
    rm "$pair/headers.csv"
    says 'that there are no headers' 'gateway: headers.csv: No such file or directory'
    mkdir "$pair/headers.csv"
    says 'that the headers are a folder' 'gateway: headers.csv: Is a directory'
    fresh_pair
    { times 16 '7,250\r\n'; printf '7,250,1\r\n7,250\r\nx,250\r\n7\r\n'; } >"$pair/headers.csv"
    says 'which header lines are refused' 'gateway: headers.csv: 3 lines refused, the first is line 17: 3 cells, where a rule has 2 fields'
    headers '7,250\r\n7,'
    says 'one header line' 'gateway: headers.csv: 1 line refused, the first is line 2, cell 2: not a plain number from 0 to 4294967295'
    headers '7,250\n8,5\n'
    says 'header lines that end in LF' 'gateway: headers.csv: 1 line refused, the first is line 1: lines end in LF and must end in CR LF: try unix2dos headers.csv'
    rules '7,7\r\n'
    says 'one field' 'gateway: headers.csv: 2 lines refused, the first is line 1: 2 cells, where a rule has 1 field'
}

# Names as they are given, standard input among them.
messages_of_names() {
    fresh_pair
    "$second" gateway "$pair/rules.csv" "$pair/headers.csv" >"$scratch/want"
    timeout "$limit" "$gateway" - "$pair/headers.csv" <"$pair/rules.csv" >"$scratch/got" 2>"$scratch/said"
    cmp -s "$scratch/want" "$scratch/got" && [ ! -s "$scratch/said" ]
    judge $? 'gateway reads its rules from standard input'
    timeout "$limit" "$gateway" "$pair/rules.csv" - <"$pair/headers.csv" >"$scratch/got" 2>"$scratch/said"
    cmp -s "$scratch/want" "$scratch/got" && [ ! -s "$scratch/said" ]
    judge $? 'gateway reads its headers from standard input'
    printf '1,2,3\r\n' | timeout "$limit" "$gateway" - "$pair/headers.csv" 2>&1 >/dev/null | cmp -s <(echo 'gateway: -: line 1: 3 cells, where a rule has two for each field') -
    judge $? 'gateway says - of standard input'
    (cd "$scratch" && timeout "$limit" "$gateway" messages/rules.csv nowhere/h.csv 2>&1 >/dev/null) | cmp -s <(echo 'gateway: nowhere/h.csv: No such file or directory') -
    judge $? 'gateway says a name as it is given'
    says_one_line "$gateway" - -
    judge $? 'gateway with standard input named twice says one line on standard error alone'
}

# A read that fails: of rules nothing is printed then, of headers nothing more.
messages_of_reads() {
    fresh_pair
    echo 'gateway: -: Bad file descriptor' >"$scratch/want"
    timeout "$limit" "$gateway" - "$pair/headers.csv" >"$scratch/got" 2>"$scratch/said" <&-
    [ ! -s "$scratch/got" ] && cmp -s "$scratch/want" "$scratch/said"
    judge $? 'gateway prints nothing of rules that it can not read'
    timeout "$limit" "$gateway" "$pair/rules.csv" - >"$scratch/got" 2>"$scratch/said" <&-
    printf 'rule,tests\r\n' | cmp -s - "$scratch/got" && cmp -s "$scratch/want" "$scratch/said"
    judge $? 'gateway prints the first line alone where it can not read its headers'
}

# Each answer is written before the next line comes.
messages_over_a_pipe() {
    local head='' answer='' other='' ends=''
    fresh_pair
    coproc served { timeout "$limit" "$gateway" "$pair/rules.csv" - 2>/dev/null; }
    IFS= read -r -t 20 head <&"${served[0]}"
    printf '7,250\r\n' >&"${served[1]}"
    IFS= read -r -t 20 answer <&"${served[0]}"
    printf '8,' >&"${served[1]}"
    printf '5\r' >&"${served[1]}"
    printf '\n' >&"${served[1]}"
    IFS= read -r -t 20 other <&"${served[0]}"
    eval "exec ${served[1]}>&-"
    IFS= read -r -t 20 ends <&"${served[0]}"
    wait "$served_PID" 2>/dev/null
    [ "$head" = $'rule,tests\r' ] && [ "$answer" = $'1,2\r' ] && [ "$other" = $'2,3\r' ] && [ -z "$ends" ]
    judge $? 'gateway serves over a pipe, an answer for each line as it comes'
}

conduct_messages() {
    messages_of_rules
    messages_of_headers
    messages_of_names
    messages_of_reads
    messages_over_a_pipe
    rm -rf "$scratch/messages"
}
