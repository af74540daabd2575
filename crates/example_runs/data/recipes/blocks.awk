# The strokes of a log, a block for each picture, with two empty lines between the blocks, as gnuplot's
# `index` takes them:  awk [-v every=N] -f blocks.awk FRAMES LOG
# Frame 0, before the first write of 8840, is left out, and so is a picture without a stroke.
FNR == NR { if ($1 == "F") { start[$2] = $3; frames = $2 + 1 } next }
$1 != "S" { next }
{ while (k + 1 < frames && $2 > start[k + 1]) k++ }
k == 0 || (every && k % every) { next }
k != last { if (last) print "\n"; last = k }
{ print }
