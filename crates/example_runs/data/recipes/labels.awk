# The names of a program, a line `HHHH NAME` each, as names.awk and script.awk take them:
#   awk -f labels.awk GAME.labels > GAME.names                      of ld65's -Ln
#   awk -f labels.awk GAME.s GAME.listing > GAME.names              of a processor's source
#   awk -f labels.awk GAME.s GAME.v GAME.listing > GAME.names       and of a generator's
# LISTING is what `gravitar asm` prints. It knows each label that a line with bytes follows, and each NAME = SUM
# with a `$` number or another address in it. The status is 1 where it finds no name.
BEGIN { sources = ARGC - 2 }
function value(digits,  n, i) {
    for (i = 1; i <= length(digits); i++) n = n * 16 + index("0123456789abcdef", tolower(substr(digits, i, 1))) - 1
    return n
}
function name(address, word) {
    if (address < 0 || address > 65535) return
    printf "%04X %s\n", address, word
    found++
}
# The sum of an `=`. `is_address` says whether an address is in it.
function sum(text,  total, sign, word) {
    is_address = 0; total = 0; sign = 1
    gsub(/[ \t]/, "", text)
    while (text != "") {
        if (match(text, /^[-+]/)) { sign = substr(text, 1, 1) == "-" ? -1 : 1; text = substr(text, 2); continue }
        if (!match(text, /^[A-Za-z_0-9$%]+/)) { is_address = 0; return 0 }
        word = substr(text, 1, RLENGTH); text = substr(text, RLENGTH + 1)
        if (word ~ /^\$/) { is_address = 1; total += sign * value(substr(word, 2)) }
        else if (word ~ /^[0-9]+$/) total += sign * word
        else if (word in address_of) { is_address = 1; total += sign * address_of[word] }
        else if (word in number_of) total += sign * number_of[word]
        else { is_address = 0; return 0 }
        sign = 1
    }
    return total
}
FNR == 1 { file++ }
sources < 1 {
    if ($1 == "al" && $3 ~ /^\.[A-Za-z_]/) name(value($2), substr($3, 2))
    next
}
file <= sources {
    sub(/;.*/, ""); sub(/\r$/, "")
    if (match($0, /^[ \t]*[A-Za-z_][A-Za-z_0-9]*[ \t]*:/)) {
        word = substr($0, 1, RLENGTH); $0 = substr($0, RLENGTH + 1)
        gsub(/[ \t:]/, "", word)
        labels[file, FNR] = word
    }
    if (match($0, /^[ \t]*[A-Za-z_][A-Za-z_0-9]*[ \t]*=/)) {
        word = substr($0, 1, RLENGTH); rest = substr($0, RLENGTH + 1)
        gsub(/[ \t=]/, "", word)
        number = sum(rest)
        if (is_address) { address_of[word] = number; name(number, word) } else number_of[word] = number
    }
    next
}
# The listing has the processor's lines and then the generator's.
/^[0-9A-F][0-9A-F][0-9A-F][0-9A-F] [0-9]+:/ {
    part = $1 ~ /^[2-5]/ ? 2 : 1
    for (n = done[part] + 1; n <= $2 + 0; n++) if ((part, n) in labels) name(value($1), labels[part, n])
    if ($2 + 0 > done[part]) done[part] = $2 + 0
}
END { if (!found) { print "labels.awk: no name" > "/dev/stderr"; exit 1 } }
