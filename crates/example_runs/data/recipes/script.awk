# A debugger's script with names in place of addresses, as one without:
#   awk -f script.awk NAMES SCRIPT > PLAIN
# NAMES is what labels.awk makes. Where the debugger takes an address, a line may have NAME, NAME+N or NAME-N, with N
# in decimal digits: `break irq`, `watch score+1`, `mem list 16`. Four hexadecimal digits stay an address. A name
# that isn't in NAMES is refused with status 1.
function value(digits,  n, i) {
    for (i = 1; i <= length(digits); i++) n = n * 16 + index("0123456789abcdef", tolower(substr(digits, i, 1))) - 1
    return n
}
FILENAME == ARGV[1] { if (!($2 in at)) at[$2] = value($1); next }
$1 ~ /^(break|watch|mem|dis|vdis)$/ && $2 !~ /^[0-9A-Fa-f][0-9A-Fa-f][0-9A-Fa-f][0-9A-Fa-f]$/ {
    word = $2; more = 0
    if (match(word, /[-+][0-9]+$/)) { more = substr(word, RSTART) + 0; word = substr(word, 1, RSTART - 1) }
    if (!(word in at)) { print FILENAME ": line " FNR ": no name " word > "/dev/stderr"; exit 1 }
    $2 = sprintf("%04X", (at[word] + more) % 65536)
}
{ print }
