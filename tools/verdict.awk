# What the program's answer to one sheet comes to, as fields parted by tabs:
#   verdict (usable, unusable, refused or none), refusal, turned, against, split, ok, failed, triangles, edges, open, over, closed, what is wrong in words
# A body is usable only if its answer is whole, its mesh has triangles and edges, no face failed, nothing contradicts, and the mesh is closed.
# The numbers' meanings are read from README.md, whose name comes first; the answer comes second.
BEGIN { FS = " "; OFS = "\t" }
FILENAME == ARGV[1] {
  if (split($0, cell, /[ ]*[|][ ]*/) >= 3 && cell[2] ~ /^[0-9]+$/) meaning[cell[2]] = cell[3]
  next
}
{ lines++; last = $0 }
/^\(refused [0-9]+\)$/ { refusal = substr($2, 1, length($2) - 1) }
/^\(mesh [0-9]+ [0-9]+\)$/ { vertices = $2 + 0; triangles = $3 / 3 }
/^\(v / { vertex_lines++ }
/^\(t / { triangle_lines++ }
/^\(failed / { failed++ }
/^\((turned|against|split|ok|edges|open|over|closed) [0-9]+\)$/ { count[substr($1, 2)] = $2 + 0 }

# One more thing that is wrong.
function wrong(text) { words = words (words == "" ? "" : "; ") text }

# A number of things, in the singular for one.
function things(number, one, more) { return number " " (number == 1 ? one : more) }

# Whether nothing of an answer is missing: a line for each vertex and triangle, and every count.
function whole(names, k, n) {
  n = split("turned against split ok edges open over closed", names, " ")
  for (k = 1; k <= n; k++) if (!(names[k] in count)) return 0
  return triangles != "" && vertex_lines + 0 == vertices && triangle_lines + 0 == triangles && last ~ /^\(closed [01]\)$/
}

# Which edges keep a mesh from being closed.
function not_closed() {
  if (!count["open"] && !count["over"]) return "the mesh is not closed: edges fall together where 0.0 and -0.0 are one point"
  return "the mesh is not closed: of " things(count["edges"], "edge", "edges") " " things(count["open"], "has", "have") " one side and " \
    count["over"] " more than two"
}

END {
  failed += 0
  if (lines == 1 && refusal != "") {
    print "refused", refusal, "", "", "", "", "", "", "", "", "", "", meaning[refusal] == "" ? "no such refusal is known" : meaning[refusal]
  } else if (refusal != "" || !whole()) {
    print "none", "", "", "", "", "", "", "", "", "", "", "", lines ? "the answer is cut off" : "the program gave no answer"
  } else {
    if (triangles == 0) wrong("there are no triangles")
    else if (!count["edges"]) wrong("there are no edges: every triangle has shrunk to a point")
    if (failed) wrong(things(failed, "face has failed", "faces have failed"))
    if (count["against"]) wrong("the faces contradict each other (against " count["against"] ")")
    if (triangles > 0 && !count["closed"]) wrong(not_closed())
    print words == "" ? "usable" : "unusable", "", count["turned"], count["against"], count["split"], count["ok"], failed, triangles, count["edges"], \
      count["open"], count["over"], count["closed"], words
  }
}
