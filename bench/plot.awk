# Draws lines of PANEL, SERIES, X, Y, divided by tabs, as an SVG: the panels side by side, each with its series as lines and the same axes.
#   awk -v across=NAME -v up=NAME [-v logs=1] -f plot.awk POINTS
# With `logs` both axes are of powers: of 4 across, of 10 up.
BEGIN {
    FS = "\t"
    width = 360; height = 300; left = logs ? 100 : 70; top = 40; bottom = 50; gap = 70; legend = 24
    split("#1f4e79 #1f4e79 #b3541e #b3541e", colours, " ")
}
{
    if (!($1 in panel_of)) { panel_of[$1] = ++panels; panel_name[panels] = $1 }
    if (!($2 in series_of)) { series_of[$2] = ++many; series_name[many] = $2 }
    n++
    panel[n] = panel_of[$1]; series[n] = series_of[$2]; x[n] = $3; y[n] = $4
    if (n == 1 || $3 < least_x) least_x = $3
    if ($3 > most_x) most_x = $3
    if (n == 1 || $4 < least_y) least_y = $4
    if ($4 > most_y) most_y = $4
}
function power(base, value, up,    p) {
    p = 1
    while (p * base <= value) p *= base
    return up && p < value ? p * base : p
}
function across_at(p, value) {
    return left + (p - 1) * (width + gap) + width * (logs ? log(value / from_x) / log(to_x / from_x) : (value - from_x) / (to_x - from_x))
}
function up_at(value) {
    return top + height - height * (logs ? log(value / from_y) / log(to_y / from_y) : (value - from_y) / (to_y - from_y))
}
function grouped(value,    s, out) {
    s = sprintf("%d", value)
    while (length(s) > 3) { out = "," substr(s, length(s) - 2) out; s = substr(s, 1, length(s) - 3) }
    return s out
}
function size(value) {
    if (!logs) return grouped(value)
    return value >= 1048576 ? value / 1048576 " Mi" : value / 1024 " Ki"
}
function text(at, down, anchor, words, more) {
    printf "<text x=\"%.1f\" y=\"%.1f\" text-anchor=\"%s\"%s>%s</text>\n", at, down, anchor, more, words
}
function line(x1, y1, x2, y2, colour) {
    printf "<line x1=\"%.1f\" y1=\"%.1f\" x2=\"%.1f\" y2=\"%.1f\" stroke=\"%s\"/>\n", x1, y1, x2, y2, colour
}
function ticks_of(p,    value, base) {
    base = left + (p - 1) * (width + gap)
    for (value = logs ? 16384 : 0; value <= to_x; value = logs ? value * 4 : value + 5) {
        line(across_at(p, value), top, across_at(p, value), top + height, "#ddd")
        text(across_at(p, value), top + height + 16, "middle", size(value))
    }
    for (value = from_y; value <= to_y; value = logs ? value * 10 : value + 500) {
        line(base, up_at(value), base + width, up_at(value), "#ddd")
        text(base - 6, up_at(value) + 4, "end", value < 1000000 ? grouped(value) : grouped(value / 1000000) " million")
    }
}
END {
    from_x = logs ? 16384 / 2 : 0
    to_x = logs ? 16777216 * 2 : 20
    from_y = logs ? power(10, least_y, 0) : 0
    to_y = logs ? power(10, most_y, 1) : 500 * int((most_y + 499) / 500)
    all = left + panels * (width + gap) - gap + 20
    down = top + height + bottom + legend * int((many + 1) / 2)
    printf "<svg xmlns=\"http://www.w3.org/2000/svg\" viewBox=\"0 0 %d %d\" width=\"%d\" height=\"%d\" font-family=\"sans-serif\" font-size=\"12\">\n", all, down, all, down
    printf "<rect width=\"%d\" height=\"%d\" fill=\"white\"/>\n", all, down
    for (p = 1; p <= panels; p++) {
        ticks_of(p)
        text(left + (p - 1) * (width + gap) + width / 2, top - 14, "middle", panel_name[p], " font-weight=\"bold\"")
        text(left + (p - 1) * (width + gap) + width / 2, top + height + 36, "middle", across)
        for (s = 1; s <= many; s++) {
            points = ""
            for (i = 1; i <= n; i++)
                if (panel[i] == p && series[i] == s) points = points sprintf("%.1f,%.1f ", across_at(p, x[i]), up_at(y[i]))
            if (points != "")
                printf "<polyline fill=\"none\" stroke=\"%s\" stroke-width=\"2\"%s points=\"%s\"/>\n", colour_of(s), dashes_of(s), points
        }
    }
    text(16, top + height / 2, "middle", up, sprintf(" transform=\"rotate(-90 16 %.1f)\"", top + height / 2))
    for (s = 1; s <= many; s++) {
        at = left + ((s - 1) % 2) * 200
        row = top + height + bottom + legend * int((s - 1) / 2) + 4
        printf "<line x1=\"%d\" y1=\"%d\" x2=\"%d\" y2=\"%d\" stroke=\"%s\" stroke-width=\"2\"%s/>\n", at, row, at + 30, row, colour_of(s), dashes_of(s)
        text(at + 38, row + 4, "start", series_name[s])
    }
    print "</svg>"
}
# The proved side is drawn whole, plain C in dashes; reading and writing have a colour each.
function colour_of(s) { return colours[s] }
function dashes_of(s) { return series_name[s] ~ /plain C$/ ? " stroke-dasharray=\"6 4\"" : "" }
