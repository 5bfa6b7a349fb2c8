# The families of crates.txt, printed as a graph for graphviz (-v form=dot) or as a table for docs/ARCHITECTURE.md (-v form=table), from the
# outside in. A family begins at a comment '# NAME (WAY): what it is', without a way of data where more than one needs it, and has the crates
# behind the comment; what a crate is, the first sentence of its source says. Run where crates.txt is.
# The graph has a box for each family with its crates, in a frame of its way, and an arrow to each family that it imports; an arrow that others
# imply is left out.

/^# / {
  colon = index($0, ":")
  name[++families] = substr($0, 3, colon - 3)
  what[families] = substr($0, colon + 2)
  if (match(name[families], / \(.*\)$/)) {
    way[families] = substr(name[families], RSTART + 2, RLENGTH - 3)
    name[families] = substr(name[families], 1, RSTART - 1)
    if (!(way[families] in seen)) { seen[way[families]]; ways[++count] = way[families] }
  }
  next
}
/:/ {
  crate[++crates] = $0
  sub(/[ :].*/, "", crate[crates]) # a static library has a word more before its colon
  family[crate[crates]] = families
  n = split(substr($0, index($0, ":") + 1), import, " ")
  for (k = 1; k <= n; k++)
    if (import[k] in family && family[import[k]] != families) edge[families, family[import[k]]]
}

# the first sentence of the comment at the head of a crate's source
function sentence(of,   path, line, text) {
  path = "crates/" of "/src/lib.rt"
  if ((getline line < path) <= 0) { path = "crates/" of "/src/main.rt"; getline line < path }
  for (; line ~ /^\/\//; getline line < path) { sub(/^\/\/ ?/, "", line); text = text (text == "" ? "" : " ") line; line = "" }
  close(path)
  if (match(text, /\.( |$)/)) text = substr(text, 1, RSTART - 1)
  return text
}

function table(   c) {
  print "| family | crate | what it is |\n|---|---|---|"
  for (c = crates; c > 0; c--)
    printf "| %s | [`%s`](../crates/%s) | %s |\n", family[crate[c]] == family[crate[c + 1]] ? "" : name[family[crate[c]]], crate[c], crate[c],
      sentence(crate[c])
}

function escaped(text) { gsub(/&/, "\\&amp;", text); gsub(/</, "\\&lt;", text); gsub(/>/, "\\&gt;", text); return text }

# words in lines of at most `most` letters
function wrapped(text, most,   n, word, k, line, lines) {
  n = split(text, word, " ")
  for (k = 1; k <= n; k++) {
    if (line != "" && length(line " " word[k]) > most) { lines = lines escaped(line) "<br/>"; line = "" }
    line = line (line == "" ? "" : " ") word[k]
  }
  return lines escaped(line)
}

function box(f,   c, list) {
  for (c = crates; c > 0; c--) if (family[crate[c]] == f) list = list " " crate[c]
  printf "    f%d [label=<<b>%s</b><br/>%s<br/><font face=\"Courier,monospace\">%s</font>>%s];\n", f, escaped(name[f]), wrapped(what[f], 22), wrapped(list, 10),
    way[f] == "" ? "" : ", fillcolor=white"
}

function graph(   w, f, g, h) {
  print "// written from crates.txt by make figure"
  print "digraph families {"
  print "  graph [bgcolor=white, fontname=\"Helvetica,Arial,sans-serif\", fontsize=12, nodesep=0.12, ranksep=0.3, newrank=true];"
  print "  node [shape=box, style=\"rounded,filled\", fillcolor=\"#eeeeee\", fontname=\"Helvetica,Arial,sans-serif\", fontsize=10, margin=\"0.09,0.05\"];"
  print "  edge [color=\"#666666\", arrowsize=0.6];"
  split("#dbe9f6 #e2f0d9 #fdebd3 #eadff2", colour, " ")
  for (w = 1; w <= count; w++) {
    printf "  subgraph cluster_%d {\n    label=<<b>%s</b>>; style=\"rounded,filled\"; color=\"%s\";\n", w, ways[w], colour[w]
    for (f = families; f > 0; f--) if (way[f] == ways[w]) box(f)
    print "  }"
  }
  for (f = families; f > 0; f--) if (way[f] == "") box(f)
  # each family imports only those before it
  for (f = 1; f <= families; f++)
    for (g = f - 1; g > 0; g--)
      if ((f, g) in edge) {
        if (!((f, g) in reached)) printf "  f%d -> f%d;\n", f, g
        reached[f, g]
        for (h = 1; h < g; h++) if ((g, h) in reached) reached[f, h]
      }
  print "}"
}

END { if (form == "dot") graph(); else table() }
