# Turns the lines of the benches into the tables and the paragraph of RESULTS.md: ratios first, then times. In a line of words:
#   build CHARACTER n d b PROVED PLAIN SORTED                                     nanoseconds of one build
#   lookup CHARACTER n d b TESTS HITS PROVED RUST C SCAN C_SCAN ACL_MANY ACL_ONE   nanoseconds of one lookup; - where not measured
#   prefixes CHARACTER RANGES WIDTH PREFIXES PROVED PLAIN                         nanoseconds of one range
#   gateway RULES HEADERS BYTES I_PROVED I_PLAIN T_PROVED T_PLAIN                 instructions, seconds
#   code FUNCTION WORD                                                            same, other, new or gone against the commit before
#   before FUNCTION CHARACTER n d b RATIO BEFORE                                  nanoseconds of one call, a line for each placement; of
#                                                                                 range_to_prefixes RANGES WIDTH PREFIXES in the place of n d b,
#                                                                                 of lookup then the mean tests, BEFORE NEW
#   dates FUNCTION CHARACTER n d b RATIO NONE                                     the same, of all dates over none; not beside lines of the
#                                                                                 commit before
#   choices FUNCTION CHARACTER n d b RATIO BUILD ITSELF                           the same, over the build, or over the audit for its parts
function ratio(a, b) { return b == "-" || b == "" ? "-" : a / b >= 100 ? grouped(a / b) : sprintf(a / b < 0.095 ? "%.3f" : "%.2f", a / b) }
function fine(x) { return sprintf(x < 0.0095 ? "%.4f" : x < 0.095 ? "%.3f" : "%.2f", x) }
function per_second(ns) { return ns == "-" || ns == "" ? "-" : sprintf(1000 / ns < 1 ? "%.3f" : "%.2f", 1000 / ns) }
function micro(ns) { return sprintf(ns < 1e5 ? "%.1f" : "%.0f", ns / 1000) }
function nano(ns) { return sprintf(ns < 100 ? "%.1f" : "%.0f", ns) }
function spoken(character) { gsub("_", " ", character); return character }

$1 == "acl" { acl = $2 " " $3 }
$1 == "build" { builds[++nb] = $0; if ($2 == "access_list" && $3 == 1024) plain_1024 = $7 }
$1 == "lookup" && $2 != "fields" && $2 != "partitions" { looks[++nl] = $0 }
$1 == "lookup" && $2 == "fields" { fields[++nf] = $0 }
$1 == "lookup" && $2 == "partitions" { parts[++np] = $0 }
$1 == "prefixes" { ranges[++ng] = $0 }
$1 == "gateway" { gateway = $0 }
$1 == "code" { code[$2] = $3; codes[++nc] = $2 }
$1 == "dates" { dated = 1 }
$1 == "choices" { chosen = 1 }
$1 == "before" || $1 == "dates" || $1 == "choices" {
    row = $2 " " $3 " " $4 " " $5 " " $6
    if (!(row in turns)) { rows[++nr] = row; low[row] = $7 }
    turns[row]++; ratios[row] += $7; earlier[row] += $8
    if ($1 == "choices") itself[row] += $9
    if ($1 == "before" && $2 == "lookup") tests[row] = grouped($9, 1) " | " grouped($10, 1)
    if ($7 < low[row]) low[row] = $7
    if ($7 > high[row]) high[row] = $7
}
$1 == "lookup" {
    each = $8 / $6
    if (least == "" || each < least) least = each
    if (each > most) most = each
    if ($3 == 1024 && $8 / $9 > worst) { worst = $8 / $9; split($0, worst_line, " ") }
}

# Prints one table of ratios and one of lookups a second, for lines[first] to lines[last].
function lookup_tables(lines, first, last,    k, w) {
    print "| bench | list | partitions | tests | over Rust loop | over C loop | over scan | over C scan | over acl, 64 a call | over acl, 1 a call |"
    print "|---|---|--:|--:|--:|--:|--:|--:|--:|--:|"
    for (k = first; k <= last; k++) {
        split(lines[k], w, " ")
        printf "%s **%s** | %s | %s | %s | %s | %s |\n", lookup_name(w), ratio(w[8], w[9]), ratio(w[8], w[10]), ratio(w[8], w[11]), ratio(w[8], w[12]), ratio(w[8], w[13]), ratio(w[8], w[14])
    }
    print "\nMillions of lookups a second:\n"
    print "| bench | list | partitions | tests | proved | Rust loop | C loop | scan | C scan | acl, 64 a call | acl, 1 a call |"
    print "|---|---|--:|--:|--:|--:|--:|--:|--:|--:|--:|"
    for (k = first; k <= last; k++) {
        split(lines[k], w, " ")
        printf "%s **%s** | %s | %s | %s | %s | %s | %s |\n", lookup_name(w), per_second(w[8]), per_second(w[9]), per_second(w[10]), per_second(w[11]), per_second(w[12]), per_second(w[13]), per_second(w[14])
    }
}
function lookup_name(w) { return "| " lookup_bench(w) " | " lookup_list(w) " | " grouped(w[5]) " | " grouped(w[6], 1) " |" }
function lookup_bench(w) { return sprintf("`lookup_%d_rules_%d_field%s%s`", w[3], w[4], w[4] == 1 ? "" : "s", w[2] == "partitions" ? "_" w[5] "_partition" (w[5] == 1 ? "" : "s") : "") }
function lookup_list(w) { return w[2] == "fields" ? "points" : w[2] == "partitions" ? "layers" : spoken(w[2]) }
# A number with its thousands parted, and with some digits after the point.
function grouped(x, digits,    t) {
    t = sprintf("%." (digits + 0) "f", x)
    return x < 1000 ? t : sprintf("%d,%s", int(x / 1000), substr(t, length(int(x / 1000)) + 1))
}
# A time with its unit.
function timed(ns) { return ns < 1000 ? sprintf("%.0f ns", ns) : micro(ns) " µs" }

# What a row that is timed at placements is called: by rules and fields, or by the width of ranges.
function placed_name(w) {
    return w[1] == "range_to_prefixes" ? sprintf("`%s_%d_bits`", w[1], w[4]) : sprintf("`%s_%d_rules_%d_fields`", w[1], w[3], w[4])
}
# The mean over the placements, with its least and its most, and the time of what it is held against.
function placed_figures(row) { return sprintf("**%s** | %s | %s | %s", fine(ratios[row] / turns[row]), fine(low[row]), fine(high[row]), timed(earlier[row] / turns[row])) }

# Which table a row stands in: that of ranges, of lists with the tests of a lookup, or of lists.
function table_of(row) { return row ~ /^range_to_prefixes / ? "ranges" : row in tests ? "tests" : "lists" }

# Prints the rows of a table, in the order asked for, if there are any: one thing over another.
function placed_table(table, one, other,    i, k, w, head) {
    for (i = 1; i <= m; i++) for (k = 1; k <= nr; k++) {
        split(rows[k], w, " ")
        if (w[1] != names[i] || table_of(rows[k]) != table) continue
        if (!head++) {
            printf "| bench | %s | %s over %s | least | most | %s |", table == "ranges" ? "ranges | prefixes a range" : "list | partitions", one, other, other
            printf "%s\n|---|---|--:|--:|--:|--:|--:|%s\n", table == "tests" ? sprintf(" tests, %s | tests, %s |", other, one) : "", table == "tests" ? "--:|--:|" : ""
        }
        printf "| %s | %s | %s | %s |", placed_name(w), spoken(w[2]), table == "ranges" ? grouped(w[5] / w[3], 1) : grouped(w[5]), placed_figures(rows[k])
        print table == "tests" ? " " tests[rows[k]] " |" : ""
    }
    if (head) print ""
}

# Says whether an aim for a function holds, by the mean over the placements: on every list, or on those of one character, of at least
# so many rules or ranges.
function aim(name, words, limit, character, from,    k, w, most, where) {
    if (index(" " asked " ", " " name " ") == 0) return
    for (k = 1; k <= nr; k++) {
        split(rows[k], w, " ")
        if (w[1] == name && (character == "" || w[2] == character) && w[3] >= from + 0 && ratios[rows[k]] / turns[rows[k]] > most) {
            most = ratios[rows[k]] / turns[rows[k]]
            where = placed_name(w) ", " spoken(w[2])
        }
    }
    aimed(words, limit, most, where)
}
# The same by the greatest ratio and what has it; there is none where the code is the same.
function aimed(words, limit, most, where) {
    printf "- Aim: %s at most " (limit < 0.1 ? "%.3f" : "%.2f") ". ", words, limit
    if (most == "") print "It holds: same code."
    else printf "It **%s**: the greatest is " (most < 0.1 ? "%.4f" : "%.3f") " (%s).\n", most <= limit ? "holds" : "does not hold", most, where
}

# Prints what a function takes over the build, on each list on which lay_out was timed too, and the times of these functions.
function choice_table(name, functions,    i, k, m, w, of) {
    m = split(functions, of, " ")
    printf "| bench | list | partitions | over build | least | most | build |"
    for (i = 1; i <= m; i++) printf " %s |%s", of[i], i < m ? "" : "\n|---|---|--:|--:|--:|--:|--:|"
    for (i = 1; i <= m; i++) printf "--:|%s", i < m ? "" : "\n"
    for (k = 1; k <= nr; k++) {
        split(rows[k], w, " ")
        if (w[1] != name || !(("lay_out" common(rows[k])) in turns)) continue
        printf "| %s | %s | %s | %s |", placed_name(w), spoken(w[2]), grouped(w[5]), placed_figures(rows[k])
        for (i = 1; i <= m; i++) printf " %s |%s", timed(takes(of[i] common(rows[k]))), i < m ? "" : "\n"
    }
    print ""
}
# What the rows of one list have in common, and the time of a row's function itself.
function common(row) { return substr(row, index(row, " ")) }
function takes(row) { return itself[row] / turns[row] }

# Prints what an audit of each kind of list takes at four sizes, and whether it grows as n does.
function growth_table(    i, k, w, kinds, count, fields, most, where, grown) {
    for (k = 1; k <= nr; k++) {
        split(rows[k], w, " ")
        if (w[1] != "audit") continue
        if (!(w[2] in fields)) { kinds[++count] = w[2]; fields[w[2]] = w[4] }
        audits[w[2], w[3]] = takes(rows[k])
        built[w[2], w[3]] = earlier[rows[k]] / turns[rows[k]]
    }
    print "What an audit takes as n grows. With n it would take 8 times as long for 1,024 rules as for 128, with n squared 64 times:\n"
    print "| list | fields | 128 rules | 256 rules | 512 rules | 1,024 rules | audit, 1,024 over 128 | build, 1,024 over 128 |"
    print "|---|--:|--:|--:|--:|--:|--:|--:|"
    for (i = 1; i <= count; i++) {
        k = kinds[i]
        grown = audits[k, 1024] / audits[k, 128]
        if (grown > most) { most = grown; where = spoken(k) }
        printf "| %s | %d | %s | %s | %s | %s | **%.1f** | %.1f |\n", spoken(k), fields[k], timed(audits[k, 128]), timed(audits[k, 256]), timed(audits[k, 512]), timed(audits[k, 1024]), grown, built[k, 1024] / built[k, 128]
    }
    printf "\n- Aim: audit of 1,024 rules over that of 128 at most 16. It **%s**: the greatest is %.1f (%s).\n", most <= 16 ? "holds" : "does not hold", most, where
}
# Says where the time of an audit goes, by audits of the same list that say no on the way; `whole` is what it took among these.
function audit_parts(row,    list, whole, refusals, starts, order, smallest) {
    list = common(row)
    whole = earlier["until_n" list] / turns["until_n" list]
    refusals = takes("until_n" list)
    starts = takes("until_last_start" list)
    order = takes("until_last_rule" list)
    smallest = takes("until_last_least" list)
    printf "Where an audit's time goes, on the access list of 1,024 rules: of %s the refusals 1 to 5 take %s (`cuy_check` by itself %s), n, d, b and the\n", timed(whole), timed(refusals), timed(takes("check" list))
    printf "starts %s, the order %s, the smallest rule numbers %s, and neighbours and their runs %s. This was measured by audits of tables with one number\n", timed(starts - refusals), timed(order - starts), timed(smallest - order), timed(whole - smallest)
    print "altered, which say no when they come to it: n, the last start, the last rule of the order, the last of the smallest rule numbers.\n"
}

END {
    if (nc) {
        print "| function | machine code |"
        print "|---|---|"
        for (k = 1; k <= nc; k++) printf "| `%s` | %s |\n", codes[k], code[codes[k]] == "same" || code[codes[k]] == "other" ? code[codes[k]] " code" : code[codes[k]] == "new" ? "not there before" : "not there now"
        print ""
        m = split(asked, names, " ")
        placed_table("tests", "new", "before")
        placed_table("lists", "new", "before")
        placed_table("ranges", "new", "before")
        aim("lookup", "lookup of each", 1.05)
        aim("lookup", "lookup of the access lists of 512 and 1,024 rules", 0.95, "access_list", 512)
        aim("build", "build of each", 1.05)
        aim("range_to_prefixes", "range_to_prefixes of 1 to 4294967294", 0.30, "1_to_4294967294")
        aim("range_to_prefixes", "range_to_prefixes of each", 1.05)
    }
    if (nb) {
        print "## Build\n"
        print "Time of the proved `cuy_build` over that of plain C, and microseconds of one build. *C first fit* compares a rule with the members of"
        print "each partition in turn and sorts by `qsort`; *C, sorted* keeps each partition sorted and holds a rule against it by binary search."
        print "*Over 1,024* is the proved time over C first fit's for the access list of 1,024 rules. Aims: at most 10 there, and at most 20 for twins and nested.\n"
        print "| bench | list | partitions | over C first fit | over C, sorted | over 1,024 | proved | C first fit | C, sorted |"
        print "|---|---|--:|--:|--:|--:|--:|--:|--:|"
        for (k = 1; k <= nb; k++) {
            split(builds[k], w, " ")
            printf "| `build_%d_rules_%d_fields` | %s | %d | **%s** | %s | %s | %s | %s | %s |\n", w[3], w[4], spoken(w[2]), w[5], ratio(w[6], w[7]), ratio(w[6], w[8]), ratio(w[6], plain_1024), micro(w[6]), micro(w[7]), micro(w[8])
        }
        print ""
    }
    if (chosen) {
        print "## Choices\n"
        print "Time of the proved `cuy_audit` over that of `cuy_build`, and that of `cuy_choose` and `cuy_lay_out` in turn, which write the same table. All take turns"
        print "of at least 2 ms of processor time, 31 each; a ratio is the median over the rounds. The program is linked four times, with 16, 32, 48 and 64 bytes"
        print "between a page's start and the proved code; *over build* is the mean of the four ratios, least and most stand beside it, and a time is the mean of the"
        print "four best turns. The lists are those of the build above. The tables are compared first, and a choice that is not first fit's, with its partitions in the"
        print "opposite order, is laid out, audited and looked up in.\n"
        choice_table("audit", "audit")
        choice_table("choose_lay_out", "choose lay_out")
        asked = "audit choose_lay_out"
        aim("audit", "audit of the access list of 1,024 rules over its build", 0.007, "access_list", 1024)
        for (k = 1; k <= nr; k++) if (rows[k] ~ /^audit access_list 1024 /) audited = rows[k]
        printf "- Aim: audit of the access list of 1,024 rules at most 20 µs. It **%s**: it takes %s.\n", takes(audited) <= 20000 ? "holds" : "does not hold", timed(takes(audited))
        aim("choose_lay_out", "choose and lay_out in turn over the build of the access list of 1,024 rules", 1.5, "access_list", 1024)
        print ""
        audit_parts(audited)
        growth_table()
        print ""
    }
    if (nl) {
        print "## Lookup\n"
        print "Time of the proved `cuy_lookup` over that of each other way: below 1 the proved lookup is the faster one."
        print "*Rust loop* and *C loop* are the same walk, which skips the same partitions and refuses the same, on the same table. *Scan* is the proved"
        print "`cuy_plain_scan`, which checks the whole list at each call, as 01 has it; *C scan* checks nothing. *acl* is " (acl ? "librte_acl of " acl ", which classifies 64 headers a call, or one" : "librte_acl, which was not there") "."
        print "Tests are the mean range tests of a lookup, the same in all three.\n"
        lookup_tables(looks, 1, nl)
        print "\nThe same by the number of fields (points) and by the number of partitions (layers of ranges, each within the next):\n"
        for (k = 1; k <= np; k++) fields[nf + k] = parts[k]
        lookup_tables(fields, 1, nf + np)
        print ""
        aimed("lookup at 1,024 rules over the Rust loop", 1.2, worst, lookup_bench(worst_line) ", " lookup_list(worst_line))
        print "\n![Nanoseconds of a lookup against the number of rules, for four kinds of list](lookup.svg)\n"
        print "### How the cost grows\n"
        split(looks[1], a, " "); split(looks[4], z, " "); split(fields[1], fa, " "); split(fields[nf], fz, " "); split(parts[1], pa, " "); split(parts[np], pz, " ")
        crossing = ""
        for (k = 1; k <= np; k++) { split(parts[k], w, " "); if (w[8] < w[11]) crossing = w[5] }
        printf "A lookup costs what its tests cost, %.0f to %.0f ns each in this run. A partition of m rules takes at most d + k tests, 2^k being the largest power of two\n", least, most
        printf "within m (proved), so n counts by its logarithm: from %d to %s points, all in one partition, the mean goes from %.1f to %.1f tests and from %.0f to %.0f ns. A field\n", a[3], grouped(z[3]), a[6], z[6], a[8], z[8]
        printf "adds at most one test a partition: %d fields take %.0f ns where %d takes %.0f. Partitions add up, but for those that are skipped: at n = 1,024 and d = 5 the cost goes from\n", fz[4], fz[8], fa[4], fa[8]
        printf "%.0f ns with %d partition to %s ns with %s. The scan grows with n alone and knows no partitions: ", pa[8], pa[5], grouped(pz[8]), grouped(pz[5])
        if (crossing == pz[5]) print "on these layers of 1,024 rules the lookup is the\nfaster one with each of these numbers of partitions."
        else if (crossing != "") printf "on these layers of 1,024 rules the lookup is the\nfaster one up to %s partitions at least, and the scan is with many more.\n", grouped(crossing)
        else print "on these layers of 1,024 rules\nit is the faster one."
        print ""
    }
    if (dated) {
        print "## Dates\n"
        print "Time of the proved `cuy_lookup` and `cuy_build` on a list whose fields are all dates over that on a list without a date that holds the same numbers:"
        print "each high of the dates is one more. 4294967295 lies in no range of dates, so where it is drawn both lists have one less. Both sides take turns of at"
        print "least 2 ms of processor time, 31 each; their ratio is the median over the pairs of turns. The program is linked four times, with 16, 32, 48 and 64"
        print "bytes between a page's start and the proved code; *all dates over none* is the mean of the four ratios, least and most stand beside it. Each side"
        print "looks up in the table that it built itself; every table, and every answer of the functions that are given a list, is compared first.\n"
        asked = "lookup build"
        m = split(asked, names, " ")
        placed_table("lists", "all dates", "none")
        aim("lookup", "lookup with all dates over none (n ≥ 128)", 1.10, "", 128)
        aim("build", "build with all dates over none", 1.10)
        print ""
    }
    if (ng) {
        print "## Prefixes\n"
        print "Time of the proved `cuy_range_to_prefixes` over that of plain C with `__builtin_ctzll` and `__builtin_clzll`, which also counts before it writes;"
        print "nanoseconds of one range. Aim: at most 1.5 on each.\n"
        print "| bench | ranges | prefixes a range | over C | proved | C |"
        print "|---|---|--:|--:|--:|--:|"
        for (k = 1; k <= ng; k++) {
            split(ranges[k], w, " ")
            printf "| `prefixes_%d_bits` | %s | %s | **%s** | %s | %s |\n", w[4], spoken(w[2]), grouped(w[5] / w[3], 1), ratio(w[6], w[7]), nano(w[6]), nano(w[7])
        }
        print ""
    }
    if (gateway) {
        split(gateway, w, " ")
        print "## Program\n"
        print "The proved `gateway` against the same program in plain C, on the same two files; what they print is compared byte by byte. Instructions are counted"
        print "by valgrind, from the first to the last; seconds are the processor's, the best of three runs by turns. Aim: at most 3 times the instructions.\n"
        print "| bench | instructions over C | time over C | instructions, proved | instructions, C | seconds, proved | seconds, C |"
        print "|---|--:|--:|--:|--:|--:|--:|"
        printf "| `gateway_%d_rules_%d_headers` | **%s** | %s | %.0f million | %.0f million | %.2f | %.2f |\n\n", w[2], w[3], ratio(w[5], w[6]), ratio(w[7], w[8]), w[5] / 1e6, w[6] / 1e6, w[7], w[8]
    }
}
