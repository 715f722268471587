# The rows of main.c as a plot: for each row the peers' times over ours, on a logarithmic scale.
BEGIN {
    FS = "\t"
    left = 210; top = 70; high = 18; decade = 82; low = -2; last = 5
    split("naive C,C (gcc -O2),C (clang -O3),Rust,limit", peer, ",")
    split("#b3261e,#1f4e9c,#4fa3d1,#c77700,#777777", colour, ",")
}

function at(ratio) { return left + decade * (log(ratio) / log(10) - low) }

$1 !~ /^count/ { row[++n] = $1; for (k = 1; k <= 5; k++) ratio[n, k] = $(5 + k) }

END {
    right = left + decade * (last - low)
    bottom = top + high * n
    printf "<svg xmlns=\"http://www.w3.org/2000/svg\" viewBox=\"0 0 %d %d\" font-family=\"sans-serif\" font-size=\"11\">\n", right + 30, bottom + 50
    printf "<rect width=\"100%%\" height=\"100%%\" fill=\"white\"/>\n"
    printf "<text x=\"10\" y=\"20\" font-size=\"14\">A peer's time over ours: right of 1, ours is faster</text>\n"
    for (k = 1; k <= 5; k++) {
        x = 10 + (k - 1) * 150
        printf "<circle cx=\"%d\" cy=\"40\" r=\"4\" fill=\"%s\"/><text x=\"%d\" y=\"44\">%s</text>\n", x + 5, colour[k], x + 14, peer[k]
    }
    for (d = low; d <= last; d++) {
        x = left + decade * (d - low)
        printf "<line x1=\"%d\" y1=\"%d\" x2=\"%d\" y2=\"%d\" stroke=\"%s\"/>\n", x, top - 8, x, bottom, d ? "#dddddd" : "#000000"
        printf "<text x=\"%d\" y=\"%d\" text-anchor=\"middle\">%s</text>\n", x, bottom + 16, d < 0 ? sprintf("%.*f", -d, 10 ^ d) : sprintf("%d", 10 ^ d)
    }
    for (k = 1; k <= n; k++) {
        y = top + high * (k - 1)
        split(row[k], name, " ")
        label = name[1] (name[2] == "-" ? "" : " " name[2]) ", I " name[3] (name[4] == "-" ? "" : ", " name[4] " MiB")
        printf "<text x=\"%d\" y=\"%d\" text-anchor=\"end\">%s</text>\n", left - 8, y + 4, label
        for (p = 5; p >= 1; p--)
            if (ratio[k, p] != "-") printf "<circle cx=\"%.1f\" cy=\"%d\" r=\"4\" fill=\"%s\"/>\n", at(ratio[k, p]), y, colour[p]
    }
    print "</svg>"
}
