# What the program's answer to one plan comes to, as fields parted by tabs: verdict (accepted, refused or none), refusal or -, and the rest in words.
#   awk -f verdict-plan.awk README.md PLAN ANSWER
# A plan is accepted only if its listing is whole: a line for each bin's line of the plan, and no other. The numbers' meanings are read from README.md.
BEGIN { OFS = "\t" }
FILENAME == ARGV[1] {
  if (split($0, cell, /[ ]*[|][ ]*/) >= 3 && cell[2] ~ /^[0-9]+$/) meaning[cell[2]] = cell[3]
  next
}
FILENAME == ARGV[2] {
  if (/^\(bin /) wanted++
  next
}
{ lines++ }
/^\(refused [0-9]+\)$/ { refusal = substr($2, 1, length($2) - 1) }
/^\(bin [0-9]+ -?[0-9]+ -?[0-9]+ -?[0-9]+\)$/ {
  sub(/\)$/, "")
  bins++
  for (k = 1; k <= 3; k++) {
    if (bins == 1 || $(k + 2) + 0 < lowest[k] + 0) lowest[k] = $(k + 2)
    if (bins == 1 || $(k + 2) + 0 > highest[k] + 0) highest[k] = $(k + 2)
  }
}

# What a refusal means for a plan that is read, without what it means for a sheet or for a listing that is written.
function of_plan(text) {
  if (refusal == 52) return "it has more than 1048576 bytes"
  sub(/^plan( or listing)?: /, "", text)
  sub(/;.*/, "", text)
  return text == "" ? "no such refusal is known" : text
}

# How far the bins reach on an axis.
function reach(k) { return substr("xyz", k, 1) " from " lowest[k] " to " highest[k] }

# How many bins stand where.
function placed() {
  if (bins == 0) return "no bins placed"
  if (bins == 1) return "1 bin placed, at (" lowest[1] ", " lowest[2] ", " lowest[3] ")"
  return bins " bins placed: " reach(1) ", " reach(2) ", " reach(3)
}

END {
  if (lines == 1 && refusal != "") print "refused", refusal, of_plan(meaning[refusal])
  else if (lines + 0 == bins + 0 && bins + 0 == wanted + 0) print "accepted", "-", placed()
  else print "none", "-", lines ? "the answer is cut off" : "the program gave no answer"
}
