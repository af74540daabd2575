# The bytes of a text for a processor's source, in the numbers of ../font/font.v, and 255 at its end:
#   echo 'over: GAME OVER!' | awk -f text.awk
# A line is a label, a colon, a space and the text. A sign that the font hasn't is refused with status 1.
BEGIN { signs = "0123456789ABCDEFGHIJKLMNOPQRSTUVWXYZ .,-+!?:/'()=*<>%\"_#" }
{
    colon = index($0, ": ")
    if (!colon) { print FILENAME ": line " FNR ": no label" > "/dev/stderr"; exit 1 }
    text = substr($0, colon + 2); bytes = ""
    for (i = 1; i <= length(text); i++) {
        n = index(signs, substr(text, i, 1))
        if (!n) { print FILENAME ": line " FNR ": no sign " substr(text, i, 1) > "/dev/stderr"; exit 1 }
        bytes = bytes n - 1 ", "
    }
    printf "%-7s .byte %s255    ; %s\n", substr($0, 1, colon), bytes, text
}
