# The names of a program beside the addresses of a profile, a trace, or what the debugger prints:
#   awk -f names.awk NAMES TEXT                   NAMES as labels.awk makes them
#   awk -f names.awk SOURCE.s LISTING TEXT        a processor's source, and what `gravitar asm` prints
# It knows each label that a line with bytes follows, and each NAME = $HHHH. `cpu` lines of the debugger get the
# last label that isn't behind pc, and how far it is.
function value(digits,  n, i) {
    for (i = 1; i <= length(digits); i++) n = n * 16 + index("0123456789ABCDEF", substr(digits, i, 1)) - 1
    return n
}
function near(pc,  k) {                            # LABEL or LABEL+N, for an address of the ROM
    for (k = value(pc); k >= 0 && value(pc) - k < 512; k--)
        if (sprintf("%04X", k) in label) return label[sprintf("%04X", k)] (k == value(pc) ? "" : "+" value(pc) - k)
    return ""
}
function any(address) { return address in label ? label[address] : address in named ? named[address] : "" }
ARGC == 3 && FILENAME == ARGV[1] {                # NAMES
    if ($1 ~ /^[2-59A-F]/ && $1 !~ /^2[0-7]/) label[$1] = label[$1] (label[$1] ? "," : "") $2
    else if (!($1 in named)) named[$1] = $2
    next
}
ARGC > 3 && FILENAME == ARGV[1] {
    line = $0; sub(/;.*/, "", line)
    if (match(line, /^[ \t]*[A-Za-z_][A-Za-z_0-9]*[ \t]*:/)) {
        name = substr(line, 1, RLENGTH); gsub(/[ \t:]/, "", name)
        at[FNR] = name
    }
    if (match(line, /=[ \t]*\$[0-9A-Fa-f][0-9A-Fa-f][0-9A-Fa-f][0-9A-Fa-f][ \t]*$/)) {
        address = toupper(substr(line, index(line, "$") + 1, 4))
        split(line, word, /[ \t=]+/)
        if (!(address in named)) named[address] = word[1]
    }
    next
}
ARGC > 3 && FILENAME == ARGV[2] {
    if ($1 !~ /^[9A-F]/) next                     # a line of the generator
    for (n = done + 1; n <= $2 + 0; n++) if (n in at) label[$1] = label[$1] (label[$1] ? "," : "") at[n]
    if ($2 + 0 > done) done = $2 + 0
    next
}
$1 == "R" { print $0 ($2 in label ? " " label[$2] : ""); next }
$1 == "stop" && $3 ~ /^[0-9A-F]+$/ { print $0 (any($3) != "" ? "  " any($3) : ""); next }
$1 == "cpu" { at_label = near($3); print $0 (at_label != "" ? "  " at_label : ""); next }
{
    here = substr($1, 1, 4); pc = substr($2, 1, 4)
    if ($1 ~ /^[0-9A-F]+:$/ && here in label) print label[here] ":"
    if ($2 ~ /^[0-9A-F]+:$/ && pc in label) print label[pc] ":"
    if (match($0, /\$[0-9A-F][0-9A-F][0-9A-F][0-9A-F]/)) {
        to = substr($0, RSTART + 1, 4)
        if (any(to) != "") $0 = $0 "  -> " any(to)
    } else if (match($0, /[ (]\$[0-9A-F][0-9A-F]([,)]|$| )/) && "00" substr($0, RSTART + 2, 2) in named)
        $0 = $0 "  -> " named["00" substr($0, RSTART + 2, 2)]
    print
}
