# The strokes of one picture:  awk -v k=K -f frame.awk FRAMES LOG > ONE.log
# FRAMES is the output of `gravitar frames`, LOG that of `gravitar run` with the same image and tape.
# The status is 1 where there is no picture K.
FNR == NR && $1 == "F" && $2 == k { from = $3; found = 1 }
FNR == NR && $1 == "F" && $2 == k + 1 { to = $3 }
FNR == NR { next }
$1 == "S" && found && $2 > from && (to == "" || $2 <= to)
END { if (!found) { print "frame.awk: no picture " k > "/dev/stderr"; exit 1 } }
