# What the program's answer to one body that is added to a page comes to, as fields parted by tabs: verdict (added, refused or none), the page line, the
# share as a fraction, and the faces listed, each with its count, or what is wrong in words.
#   awk -v former=PAGE-LINE -f verdict-page.awk README.md ANSWER
# A body is added only if its answer is whole: the page of one body more, its share, and a line for each face that is new in the list. The numbers' meanings
# are read from README.md.
BEGIN { OFS = "\t" }
FILENAME == ARGV[1] {
  if (split($0, cell, /[ ]*[|][ ]*/) >= 3 && cell[2] ~ /^[0-9]+$/) meaning[cell[2]] = cell[3]
  next
}
{ lines++ }
/^\(refused [0-9]+\)$/ { refusal = substr($2, 1, length($2) - 1) }
lines == 1 && /^\(page( [0-9]+)+\)$/ && NF == 10 { page = $0 }
lines == 2 && /^\(share [0-9]+ [0-9]+\)$/ { share = $2 "/" substr($3, 1, length($3) - 1) }
/^\(wound [0-9]+ [0-9]+\)$/ {
  wound++
  listed = listed (listed == "" ? "" : ", ") "face " $2 " (" substr($3, 1, length($3) - 1) ")"
}

# Number k of a page line, its word being the first.
function number(line, k, words) {
  gsub(/[()]/, "", line)
  split(line, words, " ")
  return words[k] + 0
}

# Whether the answer is the former page with one body more and as many faces as it lists.
function whole() {
  if (page == "" || share == "" || lines != 2 + wound) return 0
  return number(page, 2) == number(former, 2) + 1 && number(page, 10) == number(former, 10) + wound
}

END {
  if (lines == 1 && refusal != "") {
    print "refused", "-", "-", "refused with " refusal ", " (meaning[refusal] == "" ? "which is no known refusal" : meaning[refusal])
  } else if (!whole()) print "none", "-", "-", lines ? "the answer is cut off" : "the program gave no answer"
  else print "added", page, share, listed == "" ? "-" : listed
}
