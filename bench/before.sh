# The proved code against that of the commit before, both in one program. Functions whose machine code is the same are not timed, and the
# others are timed at four placements (bench/place.sh). Sourced by bench/run; uses here, out, archive, before, say, die, need,
# proved, machine_named, code_named and load_named.
# With BENCH_ALWAYS=1 in the environment what has the same code is timed too, and nothing is written: this tests the bench itself.

# What can be timed: functions of both archives, but for cuy_choose and cuy_lay_out, which in turn are cuy_build. What one archive alone
# has is told and not timed.
compared=(lookup build plain_scan check audit independence report range_to_prefixes)
heading='## Against the commit before'
how='copy target/staticlib/libinterface.a aside at the commit before, once `scripts/archive` has written it'

# Says what is wrong with what was asked for, and ends.
refuse() { say "$*"; exit 2; }

# Prints the section on the commit before of a file of results (1), or all else of it (0).
section_of() { awk -v heading="$heading" -v inside="$1" '/^## / { now = $0 == heading } now + 0 == inside' "$2"; }

# Stops where a file is not an archive that can be compared; keeps it, since the new one may be written over it.
keep_before() { # FILE
    local name
    need binutils command -v objcopy || die 'objcopy, objdump, nm and ld are missing, and binutils can not be installed'
    [ -f "$1" ] && [ -r "$1" ] || refuse "$1 is not there or can not be read: $how"
    ar t "$1" >/dev/null 2>&1 || refuse "$1 is not an archive: $how"
    has "$1" 'cuy_.*' || refuse "$1 has no function cuy_..: $how"
    for name in "${compared[@]}" version; do has "$1" "cuy_$name" || refuse "$1 has no function cuy_$name, which bench/src/sides.h calls: $how"; done
    cp "$1" "$out/before.a"
}
has() { nm -g --defined-only "$1" 2>/dev/null | grep -q " T $2\$"; } # FILE PATTERN

# Links an archive into one object, and writes a line for each of its functions: the code that it reaches.
code_of() { # ARCHIVE NAME: target/bench/NAME.o, NAME.code
    one_object "$1" "$2" || refuse "$1 can not be linked for x86-64: $how"
    objdump -t -s -r "$out/$2.o" | awk -v side="$2" -f "$here/code.awk" | sort >"$out/$2.code"
}

# Compares and times; writes target/bench/before.lines.
against_before() { # FUNCTION..
    local timed=() name word
    proved interface
    [ -f "$archive" ] || refuse 'target/staticlib/libinterface.a is not built: leave --built out'
    code_of "$out/before.a" before
    code_of "$archive" new
    nm -g --defined-only --format=posix "$out/before.o" | awk '{ print $1, "before_" $1 }' >"$out/names"
    objcopy --redefine-syms="$out/names" "$out/before.o"
    awk 'NR == FNR { before[$1] = $0; next }
        { print "code", $1, !($1 in before) ? "new" : before[$1] == $0 ? "same" : "other"; delete before[$1] }
        END { for (name in before) print "code", name, "gone" }' "$out/before.code" "$out/new.code" | sort >"$out/before.lines"
    for name in "$@"; do
        word=$(sed -n "s/^code cuy_$name //p" "$out/before.lines")
        [ -n "$word" ] && [ "$word" != gone ] || die "the new archive has no function cuy_$name: alter bench/src/sides.h and bench/before.sh"
        [ "$word" = same ] && [ "${BENCH_ALWAYS-}" != 1 ] || timed+=("$name")
    done
    sed -n 's/^code \(.*\) \(.*\)/bench: \1: \2 code/p' "$out/before.lines" >&2
    [ ${#timed[@]} -gt 0 ] || return 0
    at_placements before 'before lists ranges' 'before new' "${timed[@]}"
}

# Prints the section: what was compared, where, how and with what outcome.
before_section() { # FUNCTION..
    cat <<TEXT
$heading

Written by \`bench/run --before FILE\`, in a run of its own: time of the new code over that of an archive kept from the commit before.

- Machine: $(machine_named).
- New code: $(code_named).
- Before: \`$(basename "$before")\`, sha256 $(sha256sum "$out/before.a" | cut -c 1-12).
- Load: $(load_named).
- Method: the machine code of each function is compared first, bytes and relocations, with all that it reaches in its archive. Where it is other code, both
  archives are linked into one program and take turns of at least 2 ms of processor time, 31 each; their ratio is the median over the pairs of turns. The
  program is linked four times, with 16, 32, 48 and 64 bytes between a page's start and the code of each archive; new over before is the mean of the four
  ratios, least and most stand beside it. Each side looks up in the table that it built itself. Every answer and prefix of both is compared first, and every
  table but for the partitions' smallest rule numbers, which the new one alone has. A lookup may take fewer tests than before, and no more: *tests* are their
  mean. No field is a date.
- How far to trust it: the same code on both sides, on one of them 16, 32 or 48 bytes further on, came out in this way at 0.99 to 1.01 for lookup, 0.98 to 1.04
  for build, 0.95 to 1.06 for plain_scan, audit and report, and 0.99 to 1.34 for check and independence, whose loops are a few instructions long (measured
  once, when this bench was written, on two processors under load); range_to_prefixes, at the same place on both sides, at 0.98 to 1.01.

TEXT
    awk -v asked="$*" -f "$here/tables.awk" "$out/before.lines"
}
