# A sheet with every second code of each list as a constant, of the same lowest bit, and read enables true.
function constant(from) { $0 = substr($0, 1, from - 1) sprintf("%10d", substr($0, from, 10) % 2) substr($0, from + 10) }
{ letter = substr($0, 1, 1); second = count[letter]++ % 2 }
letter ~ /[LADB]/ && !second { constant(2) }
letter == "G" { constant(second ? 12 : 2) }
letter == "R" { $0 = "R" sprintf("%10d", 1) substr($0, 12) }
letter == "C" { $0 = substr($0, 1, 11) sprintf("%10d", 1) substr($0, 22) }
{ print }
