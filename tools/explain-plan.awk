# A second look at a refused plan, outside the proved program: which line offends first, and what was expected there, in one line.
#   LC_ALL=C awk -v refusal=N -v ended=N -f explain-plan.awk PLAN
# ended is 0 if the plan's last byte is no line feed. Nothing is printed where nothing is found.
BEGIN {
  MOST_BIN = 65535
  MOST_OFFSET = 1099511627776
  MOST_DEPTH = 16
  MOST_BINS = 4096
  number = "-?[0-9]+"
  forms = "(group X Y Z, (bin N X Y Z) or )"
}

# Ends with what was found, if it is what the plan was refused with.
function found(kind, text) {
  if (kind == refusal) print "line " NR ": " text
  told = 1
  exit
}

# The line as it is shown: not the whole of a long one.
function shown() { return length($0) > 60 ? substr($0, 1, 57) "..." : $0 }

# What is wrong with a line's form, with the line.
function malformed(text) { found(61, text ": " shown()) }

# What is open besides the innermost group.
function around() { return depth == 1 ? "" : depth == 2 ? ", nor is the one around it" : ", nor are the " depth - 1 " around it" }

# A number without its minus.
function digits(word) { return word ~ /^-/ ? substr(word, 2) : word }

# What is wrong with the way a number is written; nothing if nothing is.
function misspelt(word) {
  if (word == "") return "one space stands between two numbers, and none behind the last"
  if (word ~ /^\+/) return "a number has no plus: " word
  if (word !~ "^" number "$") return "a number is decimal, a negative one with a minus: " word
  if (word == "-0") return "zero has no minus"
  if (digits(word) ~ /^0./) return "a number has no leading zeros: " word
  return ""
}

# Whether a number that is written well is farther from 0 than a limit.
function beyond(word, most) { return length(digits(word)) > 15 || digits(word) + 0 > most }

# A whole number in full.
function whole(value) { return sprintf("%.0f", value) }

# What is wrong with the numbers of a line, from the first offset's place on.
function check(words, count, first, wanted, k, wrong) {
  for (k = 1; k <= count; k++) if ((wrong = misspelt(words[k])) != "") malformed(wrong)
  if (count != wanted)
    malformed("it has " count (count == 1 ? " number" : " numbers") ", not " wanted ": a line of this kind is " (first == 1 ? "(group X Y Z" : "(bin N X Y Z)"))
  if (first == 2 && (words[1] ~ /^-/ || beyond(words[1], MOST_BIN))) malformed("a bin is a number from 0 to " MOST_BIN)
  for (k = first; k <= count; k++)
    if (beyond(words[k], MOST_OFFSET)) malformed("an offset is from -" whole(MOST_OFFSET) " to " whole(MOST_OFFSET))
}

# A group's line: its offset is kept with those of the groups around it.
function group(words, count, k) {
  if (/\)$/) malformed("a group's line has no bracket at its end; a line ) closes the group")
  count = split(substr($0, 8), words, "[ ]")
  check(words, count, 1, 3)
  if (depth == MOST_DEPTH) found(62, "a group is opened within " MOST_DEPTH " others, the last of them in line " opened[depth] ", and no deeper one may be")
  depth++
  opened[depth] = NR
  for (k = 1; k <= 3; k++) at[depth, k] = at[depth - 1, k] + words[k]
}

# A bin's line: its place is the sum along its path.
function bin(words, count, k, place) {
  if (!/\)$/) malformed("a bin's line ends in a bracket")
  count = split(substr($0, 6, length($0) - 6), words, "[ ]")
  check(words, count, 2, 4)
  for (k = 1; k <= 3; k++) {
    place = at[depth, k] + words[k + 1]
    if (place > MOST_OFFSET || place < -MOST_OFFSET)
      found(63, "bin " words[1] " would stand at " substr("xyz", k, 1) " " whole(place) ", which is beyond plus or minus " whole(MOST_OFFSET))
  }
  if (bins == MOST_BINS) found(64, "bin " words[1] " is one more than the " MOST_BINS " that a plan places")
  bins++
}

{
  if (/\r$/) found(61, "it ends in a carriage return, and only a line feed ends a line")
  if ($0 == "") found(61, "it is empty")
  if (/^[ \t]/) malformed("it begins with a space, and no line does")
  if (/  / || /[ \t]$/) malformed("one space stands between two numbers, and none behind the last")
  if ($0 == ")") {
    if (depth == 0) found(61, "it closes a group, and none is open")
    depth--
  } else if (/^\(group /) group()
  else if (/^\(bin /) bin()
  else malformed("expected " forms)
}

END {
  if (told || refusal != 61) exit
  if (ended == 0) print "line " NR ": it does not end in a line feed, or reading it failed"
  else if (depth > 0) print "past the last line: the group of line " opened[depth] " is not closed" around()
}
