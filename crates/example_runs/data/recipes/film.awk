# A film as an animated SVG:  awk -v every=4 -f film.awk FRAMES LOG > FILM.svg
# It shows each 4th picture (every=1: each) at its time, and begins again at the end. A browser shows it.
# The range is the standard one (docs/BOARD.md), and with -v fit=1 that of all frames.
# The status is 1 where nothing is drawn.
BEGIN { hz = 1512000; width = 420; k = 0; if (!every) every = 1 }
FNR == NR {
    if ($1 == "F") { start[$2] = $3; frames = $2 + 1 }
    if ($1 == "F" && NF == 8) {
        if (!boxes++ || $5 < x0) x0 = $5
        if (boxes == 1 || $6 < y0) y0 = $6
        if (boxes == 1 || $7 > x1) x1 = $7
        if (boxes == 1 || $8 > y1) y1 = $8
    }
    if ($1 == "E" || $1 == "X") end = $2
    next
}
function colour(c, i) {
    return sprintf("#%02x%02x%02x", int(c / 4) * 17 * i, int(c / 2) % 2 * 17 * i, c % 2 * 17 * i)
}
function flush(  t0, t1) {                        # the picture that was gathered
    if (path != "") body = body path "\"/>"
    if (k % every == 0 && body != "") {
        t0 = (start[k] - start[0]) / (end - start[0])
        t1 = k + every < frames ? (start[k + every] - start[0]) / (end - start[0]) : 1
        printf "<g visibility=\"hidden\"><animate attributeName=\"visibility\" calcMode=\"discrete\" "
        printf "repeatCount=\"indefinite\" dur=\"%.3fs\" ", (end - start[0]) / hz
        if (t1 < 1) printf "values=\"hidden;visible;hidden\" keyTimes=\"0;%.5f;%.5f\"/>", t0, t1
        else printf "values=\"hidden;visible\" keyTimes=\"0;%.5f\"/>", t0
        print body "</g>"
    }
    body = path = ink = ""
}
!boxes { exit }
!begun++ {
    edge = fit ? (x1 - x0 + y1 - y0) / 50 + 1 : 0
    if (!fit) { x0 = -9830400; y0 = -7372800; x1 = 9830400; y1 = 7372800 }
    w = x1 - x0 + 2 * edge; h = y1 - y0 + 2 * edge; s = 1000 / w
    printf "<svg xmlns=\"http://www.w3.org/2000/svg\" width=\"%d\" height=\"%d\" viewBox=\"%d %d %d %d\">\n",
        width, width * h / w, (x0 - edge) * s, (-y1 - edge) * s, 1000, h * s
    printf "<rect x=\"%d\" y=\"%d\" width=\"%d\" height=\"%d\"/>\n", (x0 - edge) * s, (-y1 - edge) * s, 1000, h * s
    print "<g fill=\"none\" stroke-linecap=\"round\" stroke-width=\"5\">"
}
$1 == "S" {
    while (k + 1 < frames && $2 > start[k + 1]) { flush(); k++ }
    if (k % every) next
    if (colour($7, $8) != ink) {
        if (path != "") body = body path "\"/>"
        ink = colour($7, $8); path = "<path stroke=\"" ink "\" d=\""; x = y = ""
    }
    if ($3 != x || $4 != y) path = path sprintf("M%d %d", $3 * s, -$4 * s)
    path = path sprintf("L%d %d", $5 * s, -$6 * s); x = $5; y = $6
}
END {
    if (!begun) { print "film.awk: nothing is drawn" > "/dev/stderr"; exit 1 }
    flush()
    print "</g>\n</svg>"
}
