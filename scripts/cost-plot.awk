# Draws what a clock costs against the column's height, from the 'clock SETTING SLICES 1 ARCHIVE PLAIN RATIO [KIT RATIO]'
# lines of the figures.
function x_of(slices) { return left + wide * slices / 24 }
function y_of(cost) { return top + tall * (1 - cost / most) }

function text(x, y, anchor, words) {
    printf "<text x=\"%.1f\" y=\"%.1f\" text-anchor=\"%s\">%s</text>\n", x, y, anchor, words
}

function line(x1, y1, x2, y2, colour) {
    printf "<line x1=\"%.1f\" y1=\"%.1f\" x2=\"%.1f\" y2=\"%.1f\" stroke=\"%s\"/>\n", x1, y1, x2, y2, colour
}

function axes(    cost, slices) {
    for (cost = 0; cost <= most; cost += step) {
        line(left, y_of(cost), left + wide, y_of(cost), cost ? "#dddddd" : "#333333")
        text(left - 8, y_of(cost) + 4, "end", cost)
    }
    line(left, top, left, top + tall, "#333333")
    for (slices = 0; slices <= 24; slices += 4) {
        line(x_of(slices), top + tall, x_of(slices), top + tall + 5, "#333333")
        text(x_of(slices), top + tall + 20, "middle", slices)
    }
    text(left + wide / 2, top + tall + 42, "middle", "slices in the column")
    printf "<text transform=\"translate(18 %.1f) rotate(-90)\" text-anchor=\"middle\">nanoseconds a clock</text>\n", top + tall / 2
}

function series(setting, side, name, colour, dashes, place,    i, points, y) {
    for (i = 1; i <= n; i++) if (settings[i] == setting && (i, side) in cost_of) {
        y = y_of(slices_of[i] * cost_of[i, side])
        points = points sprintf("%.1f,%.1f ", x_of(slices_of[i]), y)
        printf "<circle cx=\"%.1f\" cy=\"%.1f\" r=\"2.5\" fill=\"%s\"/>\n", x_of(slices_of[i]), y, colour
    }
    if (!points) return
    printf "<polyline points=\"%s\" fill=\"none\" stroke=\"%s\" stroke-width=\"2\"%s/>\n", points, colour, dashes
    y = top + 14 + 20 * place
    printf "<line x1=\"%d\" y1=\"%d\" x2=\"%d\" y2=\"%d\" stroke=\"%s\" stroke-width=\"2\"%s/>\n", left + 16, y, left + 50, y, colour, dashes
    text(left + 58, y + 4, "start", name)
}

$1 == "clock" {
    n++
    settings[n] = $2
    slices_of[n] = $3
    cost_of[n, "archive"] = $5
    cost_of[n, "plain"] = $6
    if ($3 * $5 > most) most = $3 * $5
    if (NF > 7) cost_of[n, "kit"] = $8
    if ($3 * $6 > most) most = $3 * $6
    if ($3 * $8 > most) most = $3 * $8
}

END {
    left = 80; top = 50; wide = 600; tall = 330
    step = most > 4000 ? 1000 : most > 2000 ? 500 : most > 1000 ? 250 : 100
    while (most / step > 10) step *= 2
    most = step * (int(most / step) + 1)
    print "<svg xmlns=\"http://www.w3.org/2000/svg\" viewBox=\"0 0 720 440\" width=\"720\" height=\"440\" font-family=\"sans-serif\" font-size=\"13\" fill=\"#222222\">"
    print "<rect width=\"720\" height=\"440\" fill=\"#ffffff\"/>"
    print "<text x=\"380\" y=\"26\" text-anchor=\"middle\" font-size=\"16\">What a clock costs against the column's height</text>"
    axes()
    dashed = " stroke-dasharray=\"6 4\""
    printf "<rect x=\"%d\" y=\"%d\" width=\"284\" height=\"126\" fill=\"#ffffff\"/>\n", left + 8, top + 2
    series("random", "plain", "C, cc -O2, random settings", "#c2410c", dashed, 0)
    series("random", "kit", "C, kit's clang -O3, random settings", "#15803d", dashed, 1)
    series("random", "archive", "proved archive, random settings", "#1d4ed8", dashed, 2)
    series("packed", "plain", "C, cc -O2, packed setting", "#c2410c", "", 3)
    series("packed", "kit", "C, kit's clang -O3, packed setting", "#15803d", "", 4)
    series("packed", "archive", "proved archive, packed setting", "#1d4ed8", "", 5)
    print "</svg>"
}
