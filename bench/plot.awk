# Draws the lines of 'measure growth' (KIND SIZE OURS C, nanoseconds per node) as an SVG with one panel for each kind.
#
#   awk -v machine=WORDS -f bench/plot.awk FIGURES

BEGIN { wide = 330; high = 220; left = 70; top = 50; gap = 90 }

NF == 4 {
    if (!($1 in points)) { kinds++; kind[kinds] = $1 }
    k = ++points[$1]
    size[$1, k] = $2; value[$1, k, 1] = $3; value[$1, k, 2] = $4
    for (c = 3; c <= 4; c++) if ($c > most) most = $c
    if ($2 > largest[$1]) largest[$1] = $2
}

function step_for(span,    s) {
    s = 1
    while (span / s > 10) s *= 10
    if (span / s > 5) return s * 2
    return span / s > 2.5 ? s : s / 2
}

function line(x1, y1, x2, y2, class) {
    printf "<line class=\"%s\" x1=\"%.1f\" y1=\"%.1f\" x2=\"%.1f\" y2=\"%.1f\"/>\n", class, x1, y1, x2, y2
}

function text(x, y, anchor, words) {
    printf "<text x=\"%.1f\" y=\"%.1f\" text-anchor=\"%s\">%s</text>\n", x, y, anchor, words
}

function across(p, n) { return left + (p - 1) * (wide + gap) + wide * n / largest[kind[p]] }
function up(v) { return top + high - high * v / ceiling }

END {
    if (!kinds) exit 1
    step = step_for(most)
    ceiling = step
    while (ceiling < most) ceiling += step
    printf "<svg xmlns=\"http://www.w3.org/2000/svg\" width=\"%d\" height=\"%d\" font-family=\"sans-serif\" font-size=\"12\">\n", left + kinds * (wide + gap) - gap + 30, top + high + 60
    print "<style>.grid{stroke:#ddd}.axis{stroke:#333}.ours{stroke:#1f5fa8;fill:none;stroke-width:2}.c{stroke:#c2571a;fill:none;stroke-width:2;stroke-dasharray:5 3}</style>"
    print "<rect width=\"100%\" height=\"100%\" fill=\"white\"/>"
    text(left, 20, "start", "Nanoseconds per opened node: the proved walk (whole line) and the same walk in C (broken line); " machine)
    for (p = 1; p <= kinds; p++) {
        name = kind[p]
        for (v = 0; v <= ceiling; v += step) {
            line(across(p, 0), up(v), across(p, largest[name]), up(v), v ? "grid" : "axis")
            text(across(p, 0) - 8, up(v) + 4, "end", v)
        }
        line(across(p, 0), up(0), across(p, 0), up(ceiling), "axis")
        for (k = 2; k <= points[name]; k += 2) text(across(p, size[name, k]), up(0) + 18, "middle", size[name, k])
        text(across(p, largest[name] / 2), up(0) + 40, "middle", name)
        for (c = 1; c <= 2; c++) {
            printf "<polyline class=\"%s\" points=\"", (c == 1 ? "ours" : "c")
            for (k = 1; k <= points[name]; k++) printf "%s%.1f,%.1f", (k == 1 ? "" : " "), across(p, size[name, k]), up(value[name, k, c])
            print "\"/>"
        }
    }
    print "</svg>"
}
