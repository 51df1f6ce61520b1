# Proves what people call, one call at a time. Sourced by ./run, scripts/ and bench/run; uses root.

# The programs that people run.
programs=(gateway calls)

# Takes the lock of this repository, and sets `lock`, its descriptor: what lies in target/ is not made for two at once. It is held
# while something is proved or copied from target/, and not while a program runs.
hold() { # CALLER
    command -v flock >/dev/null && command -v setsid >/dev/null || { echo "$1: flock or setsid is missing (Debian's package util-linux)" >&2; return 1; }
    exec {lock}<"$root/crates.txt" || return 1
    flock -w 5 "$lock" && return
    echo "$1: waiting for another call that is proving .." >&2
    flock "$lock" || { echo "$1: $root/crates.txt can't be locked" >&2; return 1; }
}

release() { exec {lock}<&-; }

# Prints a checksum of what the crates are proved from, the kit's name among it.
sources_sum() {
    {
        cat "$(dirname "$(readlink -f "$(command -v rt)")")/../KIT-ID"
        cd "$root" && find crates/*/{src,specs,proofs} crates.txt HANDLES -type f -print0 | LC_ALL=C sort -z | xargs -0 sha256sum
    } 2>/dev/null | sha256sum | cut -d ' ' -f 1
}

# Prints a checksum of what was proved and of what was built of it; nothing where that is not there.
built_sum() { # SUM FILE
    [ ! -f "$2" ] || echo "$1 $(sha256sum <"$2" | cut -d ' ' -f 1)"
}

# Keeps what was built of a crate that was proved, under the lock; what was changed meanwhile is proved by the next call.
keep() { # CALLER NAME SUM MADE KEPT: the sum is of before it was proved
    mkdir -p "$root/target/stamp" "${5%/*}" && cp "$4" "$5.$$" && mv "$5.$$" "$5" || { echo "$1: $4 can't be copied to $5" >&2; return 1; }
    if [ "$3" = "$(sources_sum)" ]; then built_sum "$3" "$5" >"$root/target/stamp/$2"; else rm -f "$root/target/stamp/$2"; fi
}

# Keeps the programs that an `rt ci` which passed has just proved, built and run, under the lock: nothing is proved once more.
keep_programs() { # CALLER SUM
    local name
    for name in "${programs[@]}"; do keep "$1" "$name" "$2" "$root/crates/$name/out/$name" "$root/target/bin/$name" || return 1; done
}

# Proves a crate and builds what people use of it, under the lock: target/bin/NAME of a program, target/staticlib/libNAME.a of a
# static library. target/stamp/NAME keeps the checksums of what it was proved from and of what was built; while both are as they
# were nothing is run and nothing said. Else standard error has the crates as they are proved, and where one is not, why. rt runs
# what it builds of a program, so the program is asked for its help, which goes nowhere. A signal that ends the caller ends rt
# too, which has a group of its own for that.
prove() { # CALLER NAME
    local caller=$1 name=$2 stamp=$root/target/stamp/$2 made kept words sum prover status out line said=()
    command -v rt >/dev/null || { echo "$caller: the Rattle kit is missing: its command rt is not on the PATH" >&2; return 1; }
    if [ -f "$root/crates/$name/src/main.rt" ]; then
        made=$root/crates/$name/out/$name kept=$root/target/bin/$name words=(run -- --help)
    else
        made=$root/crates/$name/out/lib$name.a kept=$root/target/staticlib/lib$name.a words=(lib)
    fi
    sum=$(sources_sum)
    [ ! -f "$stamp" ] || [ "$(cat "$stamp")" != "$(built_sum "$sum" "$kept")" ] || return 0
    mkdir -p "$root"/target/{bin,staticlib,stamp} 2>/dev/null && find "$root"/crates/*/src -maxdepth 0 -printf '%h/out\0' | xargs -0 mkdir -p 2>/dev/null || :
    if [ -n "$(find "$root"/target/{bin,staticlib,stamp} "$root"/crates/*/out -maxdepth 2 ! -type l ! -writable -print -quit 2>&1)" ]; then
        echo "$caller: $name can't be proved: $root/target or a folder crates/*/out, where what is proved is kept, can't be written by this user" >&2
        return 1
    fi
    rm -f "$stamp"
    echo "$caller: proving $name where it is not proved; all of it takes some minutes .." >&2
    exec {out}< <(exec setsid bash -c 'cd "$1" && shift && if [ "$1" = run ]; then rt "$@" 2>&1 >/dev/null; else rt "$@" 2>&1; fi </dev/null; printf "\n%s\n" "$?"' prove "$root/crates/$name" "${words[@]}")
    prover=$!
    trap 'kill -TERM -- "-$prover"; exit 129' HUP
    trap 'kill -TERM -- "-$prover"; exit 130' INT
    trap 'kill -TERM -- "-$prover"; exit 143' TERM
    while IFS= read -r line <&"$out"; do
        case $line in
        'rt: chose --jobs '*) echo "$caller: proving ${line##* } .." >&2 ;;
        'rt: waiting for '*) echo "$caller: ${line#rt: } .." >&2 ;;
        'rattle build: nothing was built, '* | *': proved' | *': proved where its callers give what it asks' | logic[\ =]* | 'library '* | 'statements '* | 'crate '* | 'axioms '* | 'linked '* | 'note: finished '* | *': note: large solution'* | \
            'so far: '*' functions checked'* | *': note: `cc` took no step by '* | 'note: only the first of '* | 'rt: '*': another copy of the repository is building this library'* | \
            'rt: '*': begins with what a check kept in '* | 'rt: rt check --fix-imports '* | 'rt: nothing has changed '* | 'rt: running '*) ;;
        *) said+=("$line") ;;
        esac
    done
    trap - HUP INT TERM
    exec {out}<&-
    # the last line is rt's exit status, and before it is an empty one
    status=1
    [ ${#said[@]} = 0 ] || status=${said[-1]}
    if [ "$status" = 0 ]; then
        keep "$caller" "$name" "$sum" "$made" "$kept"
        return
    fi
    printf '%s\n' "${said[@]}" | head -n -2 | head -n 60 >&2
    echo "$caller: $name is not proved; 'rt ${words[0]}' in $root/crates/$name says all" >&2
    return 1
}

# Proves the library and writes it under the project's name, for rt names an archive after its crate; under the lock.
write_archive() { # CALLER
    local made=$root/target/staticlib
    prove "$1" interface && cp "$made/libinterface.a" "$made/libcuyenalot.a.$$" && mv "$made/libcuyenalot.a.$$" "$made/libcuyenalot.a"
}
