# Programs that are timed at four placements of the proved code. The same machine code at another address was measured at 1.03 to 1.13:
# so what is held to a ratio near 1 is timed at each of them. Sourced by bench/run; uses here, out, flags, say and die.

# Links an archive into one object.
one_object() { # ARCHIVE NAME: target/bench/NAME.o
    ld -r --whole-archive "$1" -o "$out/$2.o"
}

# Links a program with some bytes between a page's start and the code of each object, and stops where the code does not lie there.
# Sources and objects are one word each, names parted by blanks; the functions' names begin with the object's, but for `new`.
place() { # BYTES PROGRAM SOURCES OBJECTS
    local name prefix sources=() objects=() offsets=''
    printf '.text\n.balign 4096\n.skip %s, 0xcc\n.section .note.GNU-stack,"",@progbits\n' "$1" | cc -c -x assembler - -o "$out/pad.o"
    for name in $3; do sources+=("$here/src/$name.c"); done
    for name in $4; do objects+=("$out/pad.o" "$out/$name.o"); done
    cc $flags -falign-functions=64 "${sources[@]}" "${objects[@]}" -o "$out/$2"
    for name in $4; do
        prefix=${name}_
        [ "$name" != new ] || prefix=''
        offsets+=" $(((0x$(nm "$out/$2" | sed -n "s/ T ${prefix}cuy_lookup\$//p") - $1) % 4096))"
    done
    [ "${placed:=$offsets}" = "$offsets" ] || die "the linker does not move the code by the bytes before it:$placed, then$offsets"
}

# Runs a program at each placement, and adds what it prints to its lines, behind its name.
at_placements() { # PROGRAM SOURCES OBJECTS WORD..: target/bench/PROGRAM.lines; the words are the program's
    local program=$1 sources=$2 objects=$3 bytes placed=''
    shift 3
    for bytes in 16 32 48 64; do
        say "${*:-$program}, $bytes bytes before the code .."
        place "$bytes" "$program" "$sources" "$objects"
        "$out/$program" "$@" >"$out/$program.turn"
        sed "s/^/$program /" "$out/$program.turn" >>"$out/$program.lines"
    done
}
