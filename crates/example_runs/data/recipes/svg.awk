# A picture as SVG:  awk -f svg.awk FRAMES LOG > PICTURE.svg
# It has all strokes of LOG. For one picture, take the LOG that frame.awk makes. The range is the standard
# one (docs/BOARD.md, "What a picture shows"); with -v fit=1 it is that of all frames, so that pictures of
# one run fit each other. Bits 2, 1 and 0 of a colour are red, green and blue.
# The status is 1 where nothing is drawn.
BEGIN { width = 420 }
FNR == NR {
    if ($1 == "F" && NF == 8) {
        if (!boxes++ || $5 < x0) x0 = $5
        if (boxes == 1 || $6 < y0) y0 = $6
        if (boxes == 1 || $7 > x1) x1 = $7
        if (boxes == 1 || $8 > y1) y1 = $8
    }
    next
}
!boxes { exit }
!begun++ {
    edge = fit ? (x1 - x0 + y1 - y0) / 50 + 1 : 0
    if (!fit) { x0 = -9830400; y0 = -7372800; x1 = 9830400; y1 = 7372800 }
    w = x1 - x0 + 2 * edge; h = y1 - y0 + 2 * edge
    printf "<svg xmlns=\"http://www.w3.org/2000/svg\" width=\"%d\" height=\"%d\" viewBox=\"%d %d %d %d\">\n",
        width, width * h / w, x0 - edge, -y1 - edge, w, h
    printf "<rect x=\"%d\" y=\"%d\" width=\"%d\" height=\"%d\"/>\n", x0 - edge, -y1 - edge, w, h
    printf "<g fill=\"none\" stroke-linecap=\"round\" stroke-width=\"%d\">\n", w / 200
}
$1 == "S" {
    printf "<path stroke=\"rgb(%d,%d,%d)\" d=\"M%d %dL%d %d\"/>\n", int($7 / 4) * 17 * $8,
        int($7 / 2) % 2 * 17 * $8, $7 % 2 * 17 * $8, $3, -$4, $5, -$6
}
END {
    if (!begun) { print "svg.awk: nothing is drawn" > "/dev/stderr"; exit 1 }
    print "</g>\n</svg>"
}
