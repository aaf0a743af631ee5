# A second look at a refused sheet, outside the proved program: where it is wrong, in one line.
#   awk -v refusal=N -v rows=N -v vertices=N -v indices=N -v faces=N -f explain.awk SHEET
# The limits are those of the program that refused it. Nothing is printed where nothing is found. A sheet is to have no byte of 0: some awks end a line there.
BEGIN {
  LARGEST = 4294967295
  MOST_OUTCOME = 255
  MOST_BIN = 65535
  number = "(0|[1-9][0-9]*)"
  word["box"] = 6; word["sag"] = 1
  form["box"] = "(box MINX MINY MINZ MAXX MAXY MAXZ), each of 16 hex digits in upper case"
  form["sag"] = "(sag S), 16 hex digits in upper case"
  form["default"] = "(default -) or (default MATERIAL)"
  form["material"] = "(material FACE MATERIAL)"
  form["face"] = "(face SHELL FACE) or (face SHELL FACE BIN)"
  form["fail"] = "(fail SHELL FACE NUMBER) or (fail SHELL FACE NUMBER BIN)"
  form["v"] = "(v (p X Y Z) (n X Y Z)), each of 8 hex digits in upper case"
  form["t"] = "(t A B C)"
  wanted[0] = "the box line: " form["box"]
  wanted[1] = "the sag line: " form["sag"]
  wanted[2] = "the default line: " form["default"]
  wanted[3] = "a material, face or fail line"
  wanted[4] = "a vertex, triangle, face or fail line"
  wanted[5] = "a triangle, face or fail line"
  wanted[6] = "a face or fail line"
  place = 0
  vertex = "^\\(v \\(p" hex(8) hex(8) hex(8) "\\) \\(n" hex(8) hex(8) hex(8) "\\)\\)$"
  pattern["box"] = "^\\(box" hex(16) hex(16) hex(16) hex(16) hex(16) hex(16) "\\)$"
  pattern["sag"] = "^\\(sag" hex(16) "\\)$"
  pattern["default"] = "^\\(default (-|" number ")\\)$"
  pattern["material"] = "^\\(material " number " " number "\\)$"
  pattern["face"] = "^\\(face " number " " number "( " number ")?\\)$"
  pattern["fail"] = "^\\(fail " number " " number " " number "( " number ")?\\)$"
  pattern["v"] = vertex
  pattern["t"] = "^\\(t " number " " number " " number "\\)$"
}

# A space and so many hex digits.
function hex(digits, text) {
  text = " "
  while (digits-- > 0) text = text "[0-9A-F]"
  return text
}

# Ends with what was found.
function found(text) {
  if (!told) print text
  told = 1
  exit
}

# The line as it is shown: without carriage returns, and not the whole of a long one.
function shown(text) {
  text = $0
  sub(/\r$/, "", text)
  gsub(/\r/, "?", text)
  return length(text) > 60 ? substr(text, 1, 57) "..." : text
}

# What is wrong with a line, for 51.
function malformed(text) { if (refusal == 51) found("line " NR ": " text ": " shown()) ; told = 1; exit }

# What passes a limit, for 52.
function limit(text) { if (refusal == 52) found("line " NR ": " text); told = 1; exit }

# Whether a number of the line is above the largest that a sheet may have.
function too_large(k) { return length(field[k]) > 10 || field[k] + 0 > LARGEST }

# Whether hex digits are the bits of a 32-bit float that isn't finite.
function infinite(bits) { return bits ~ /^[7F]F[89A-F]/ }

# Whether hex digits are the bits of a coordinate beyond 550637BD, the last whose cell doesn't clamp; the sign's bit is dropped first.
function clamps(bits) {
  bits = substr("0123456701234567", index("0123456789ABCDEF", substr(bits, 1, 1)), 1) substr(bits, 2)
  return bits "" > "550637BD"
}

# Whether a kind may stand at the place at hand.
function in_order(kind) {
  if (kind == "box") return place == 0
  if (kind == "sag") return place == 1
  if (kind == "default") return place == 2
  if (kind == "material") return place == 3
  if (kind == "v") return place == 4
  if (kind == "t") return place == 4 || place == 5
  return place >= 3
}

{
  text = $0
  gsub(/[()]/, "", text)
  count = split(text, field, " ")
  kind = field[1]
  if (/\r$/) malformed("it ends in a carriage return, and only a line feed ends a line")
  if ($0 == "") malformed("it is empty")
  if (!(kind in pattern)) malformed("expected " wanted[place])
  if ($0 !~ pattern[kind]) malformed("a line of this kind is " form[kind])
  if (kind != "v" && kind != "box" && kind != "sag")
    for (k = 2; k <= count; k++) if (field[k] != "-" && too_large(k)) malformed("a number is below 4294967296")
  if (!in_order(kind)) malformed("expected " wanted[place])
  if (kind == "fail" && field[4] == 0) malformed("a fail line has a number from 1 to 255")
  if ((kind == "material" && field[2] > faces) || ((kind == "face" || kind == "fail") && field[3] > faces)) limit("face numbers go to " faces)
  if (kind == "face" || kind == "fail") {
    if (table == rows) limit("there are more than " rows " faces")
    table++
    face = field[3]
    points = 0
  }
  if (kind == "v" && all_points == vertices) limit("there are more than " vertices " vertices")
  if (kind == "t" && all_corners + 3 > indices) limit("there are more than " indices / 3 " triangles")
  if (refusal == 12 && first == "" && kind == "fail" && field[4] > MOST_OUTCOME)
    first = "face " face " (line " NR "): its failure number " field[4] " is above 255"
  if (refusal == 15 && first == "" && (kind == "face" || kind == "fail")) {
    bin = field[kind == "face" ? 4 : 5]
    if (bin + 0 > MOST_BIN) first = "face " face " (line " NR "): its bin " bin " is above 65535"
  }
  if (kind == "v") {
    all_points++
    points++
    if (refusal == 23 && first == "")
      for (k = 3; k <= count; k++)
        if (field[k] != "n" && infinite(field[k])) first = "face " face " (line " NR "): " (k < 6 ? "a position" : "a normal") " is not finite: " field[k]
    if (refusal == 24 && first == "")
      for (k = 3; k <= 5; k++)
        if (clamps(field[k])) first = "face " face " (line " NR "): a position is beyond 9223372013568: " field[k]
  }
  if (kind == "t") {
    all_corners += 3
    if (refusal == 22 && first == "")
      for (k = 2; k <= 4; k++) if (field[k] >= points) first = "face " face " (line " NR "): vertex " field[k] " is not among its " points
  }
  place = kind == "box" ? 1 : kind == "sag" ? 2 : kind == "default" || kind == "material" ? 3 : kind == "v" || kind == "face" ? 4 : kind == "t" ? 5 : 6
}

END {
  if (told) exit
  if (first != "") print first
  else if (refusal == 51 && place < 3) print "the sheet ends before " wanted[place]
  else if (refusal == 51) print "its last line, line " NR ", does not end in a line feed, or reading it failed"
}
