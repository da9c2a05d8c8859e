# results.tsv as a picture (SVG): the cost of a response against its number of entries, as times one
# pass; both scales are logarithmic.
function x(n) { return left + log(n) / log(64) * width }
function y(v) { return top + height - log(v / low) / log(high / low) * height }
BEGIN {
    FS = "\t"
    left = 70; top = 50; width = 460; height = 380
    peers = split("openssl wolfssl desk plain signed", peer, " ")
    split("OpenSSL,wolfSSL,desk_check,plain C,desk_signed", title, ",")
    split("#b3541e #8a6d00 #00549f #707070 #4a9fd8", colour, " ")
}
$1 ~ /^entries-[0-9]+$/ { cost[$3, $4] = $5; if (!seen[$3]++) at[++points] = $3 }
END {
    low = 0.5; high = 64
    print "<svg xmlns='http://www.w3.org/2000/svg' width='680' height='500' viewBox='0 0 680 500' font-family='sans-serif' font-size='13'>"
    print "<rect width='680' height='500' fill='white'/>"
    print "<text x='20' y='26' font-size='15'>Instructions to read a response, as times one pass over its octets</text>"
    for (v = low; v <= high; v *= 2) {
        printf "<line x1='%d' x2='%d' y1='%.1f' y2='%.1f' stroke='%s'/>", left, left + width, y(v), y(v), v == 1 ? "black" : "#dddddd"
        printf "<text x='%d' y='%.1f' text-anchor='end'>%s</text>\n", left - 8, y(v) + 4, v
    }
    for (n = 1; n <= 64; n *= 2) printf "<text x='%.1f' y='%d' text-anchor='middle'>%d</text>\n", x(n), top + height + 20, n
    printf "<text x='%d' y='%d' text-anchor='middle'>entries in the response</text>\n", left + width / 2, top + height + 42
    printf "<text x='%d' y='%.1f'>one pass</text>\n", left + width + 10, y(1) + 4
    last = -100
    for (k = 1; k <= peers; k++) {
        line = ""
        for (i = 1; i <= points; i++) {
            n = at[i]
            v = cost[n, peer[k]] / cost[n, "pass"]
            line = line sprintf("%.1f,%.1f ", x(n), y(v))
            printf "<circle cx='%.1f' cy='%.1f' r='3' fill='%s'/>", x(n), y(v), colour[k]
            if (n == 64) end = y(v)
        }
        printf "\n<polyline points='%s' fill='none' stroke='%s' stroke-width='2'/>\n", line, colour[k]
        label[k] = end
    }
    # names at the right ends of the lines, at least 15 apart, from the top down
    for (done = 1; done <= peers; done++) {
        best = 0
        for (k = 1; k <= peers; k++) if (!(k in put) && (!best || label[k] < label[best])) best = k
        put[best] = 1
        place = label[best] < last + 15 ? last + 15 : label[best]
        last = place
        if (place > y(1) - 13 && place < y(1) + 13) { place = place < y(1) ? y(1) - 13 : y(1) + 15; last = place }
        printf "<text x='%d' y='%.1f' fill='%s'>%s</text>\n", left + width + 10, place + 4, colour[best], title[best]
    }
    print "</svg>"
}
