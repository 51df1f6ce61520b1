# Draws lookup cost against n, both by logarithm, one panel for each kind of list: the proved scan, the proved lookup and, where it was
# measured, librte_acl. Reads the lines of the lookup bench (see tables.awk) and writes an SVG.
function x_of(n) { return left + (log(n) - log(16)) / (log(1024) - log(16)) * wide }
function y_of(ns) { return top + high - (log(ns) - log(5)) / (log(100000) - log(5)) * high }
function curve(panel, column, color, dash,    k, path, w, c) {
    path = ""; c = ""
    for (k = 1; k <= count[panel]; k++) {
        split(rows[panel, k], w, " ")
        if (w[column] == "-") continue
        path = path sprintf("%s%.1f %.1f", path == "" ? "M" : " L", x_of(w[3]), y_of(w[column]))
        c = c sprintf("<circle cx=\"%.1f\" cy=\"%.1f\" r=\"3\" fill=\"%s\"/>", x_of(w[3]), y_of(w[column]), color)
    }
    if (path != "") printf "<path d=\"%s\" fill=\"none\" stroke=\"%s\" stroke-width=\"2\"%s/>%s\n", path, color, dash ? " stroke-dasharray=\"5 4\"" : "", c
}
function say(x, y, text, more) { printf "<text x=\"%.1f\" y=\"%.1f\" %s>%s</text>\n", x, y, more, text }

$1 == "lookup" && $2 != "fields" && $2 != "partitions" {
    if (!($2 in count)) names[++panels] = $2
    rows[$2, ++count[$2]] = $0
    if ($13 != "-") with_acl = 1
}

END {
    wide = 300; high = 210
    print "<svg xmlns=\"http://www.w3.org/2000/svg\" viewBox=\"0 0 800 640\" width=\"800\" height=\"640\" font-family=\"sans-serif\" font-size=\"12\" fill=\"#222\">"
    print "<rect width=\"800\" height=\"640\" fill=\"#fff\"/>"
    say(60, 24, "Nanoseconds of one lookup against the number of rules (five fields)", "font-size=\"15\" font-weight=\"bold\"")
    split("scan (proved)|lookup (proved)|lookup, plain Rust loop" (with_acl ? "|librte_acl, 64 headers a call" : ""), legend, "|")
    split("#b3552d #1f5fa8 #7fa9d6 #3a8f4a", colors, " ")
    at = 60
    for (k = 1; k in legend; k++) {
        printf "<path d=\"M%d 42 h22\" stroke=\"%s\" stroke-width=\"3\"%s/>\n", at, colors[k], k == 3 ? " stroke-dasharray=\"5 4\"" : ""
        say(at + 28, 46, legend[k], ""); at += 52 + 6.6 * length(legend[k])
    }
    for (p = 1; p <= panels; p++) {
        left = 60 + (p - 1) % 2 * 380; top = 90 + int((p - 1) / 2) * 280
        name = names[p]; label = name; gsub("_", " ", label)
        split(rows[name, count[name]], last, " ")
        say(left, top - 10, sprintf("%s: %d partition%s at n = 1,024", label, last[5], last[5] == 1 ? "" : "s"), "font-weight=\"bold\"")
        for (ns = 10; ns <= 100000; ns *= 10) {
            printf "<path d=\"M%.1f %.1f h%d\" stroke=\"#ddd\"/>\n", left, y_of(ns), wide
            say(left - 6, y_of(ns) + 4, ns < 1000 ? ns : ns / 1000 ",000", "text-anchor=\"end\" fill=\"#555\"")
        }
        for (k = 1; k <= count[name]; k++) {
            split(rows[name, k], w, " ")
            printf "<path d=\"M%.1f %.1f v%d\" stroke=\"#ddd\"/>\n", x_of(w[3]), top, high
            say(x_of(w[3]), top + high + 16, w[3] == 1024 ? "1,024" : w[3], "text-anchor=\"middle\" fill=\"#555\"")
        }
        curve(name, 11, colors[1], 0); curve(name, 9, colors[3], 1); curve(name, 8, colors[2], 0); curve(name, 13, colors[4], 0)
    }
    print "</svg>"
}
