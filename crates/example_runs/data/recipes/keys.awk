# A tape from lines in seconds:  awk -f keys.awk KEYS > TAPE
#     left = IN3 0        a name for a bit of a port, which is 0 while the button is down
#     1.5 left down       at 1.5 seconds; or up
#     8 end               the last line
# All bits begin at 1. A line that is none of these, or goes back, is refused with status 1.
BEGIN { hz = 1512000; at = -1 }
function bad(why) { print FILENAME ": line " FNR ": " why > "/dev/stderr"; failed = 1; exit 1 }
{ sub(/#.*/, "") }
NF == 0 { next }
ended { bad("after the end") }
NF == 4 && $2 == "=" {
    if ($3 !~ /^(IN[034]|[PQ][0-7])$/ || $4 !~ /^[0-7]$/) bad("no port and bit")
    port[$1] = $3; bit[$1] = 2 ^ $4; byte[$3] = 255; next
}
$1 !~ /^[0-9]+(\.[0-9]*)?$/ { bad("no time") }
$1 < at { bad("before the line above") }
{ at = $1 }
NF == 2 && $2 == "end" { printf "%.0f END\n", at * hz; ended = 1; next }
NF != 3 || !($2 in port) || $3 !~ /^(up|down)$/ { bad("no button that is up or down") }
{
    p = port[$2]; was = int(byte[p] / bit[$2]) % 2; is = $3 == "up"
    byte[p] += (is - was) * bit[$2]
    printf "%.0f %s %02X\n", at * hz, p, byte[p]
}
END { if (!failed && !ended) { print FILENAME ": no end" > "/dev/stderr"; exit 1 } }
