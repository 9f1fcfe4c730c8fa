# The table of all programs' times: files are named ours.N, and plain-aligned.N, plain-malloc.N, isal-aligned.N and isal-malloc.N.
BEGIN {
  count = split("sum scaled_sum group four_lost two_lost one_lost", names, " ")
  split("1 1 3 6 8 9", sources, " ")
  label["sum"] = "sum of two slices (`add_into`)"
  label["scaled_sum"] = "scaled sum (`scale_add_into`)"
  label["group"] = "repair from the 3 others of the group"
  label["four_lost"] = "repair from 6 survivors"
  label["two_lost"] = "repair from 8, with 2 checks"
  label["one_lost"] = "repair from 9, with 3 checks"
  peers = split("isal-aligned isal-malloc plain-aligned plain-malloc", peer, " ")
}

$1 == "time" {
  program = FILENAME
  sub(/.*\//, "", program)
  sub(/\..*/, "", program)
  key = program SUBSEP $2 SUBSEP $3
  taken = $5 / $4
  if (!(key in shortest) || taken < shortest[key]) shortest[key] = taken
}

# Bytes in a nanosecond, which are GB/s; 0 where it wasn't timed.
function speed(program, name, source_count, long,    key) {
  key = program SUBSEP name SUBSEP long
  return key in shortest ? source_count * long / shortest[key] : 0
}

# Ours, and ours divided by each peer's.
function row(i, long,    ours, text, p, theirs) {
  ours = speed("ours", names[i], sources[i], long)
  text = sprintf("| %s | %d KiB | %.1f |", label[names[i]], long / 1024, ours)
  for (p = 1; p <= peers; p++) {
    theirs = speed(peer[p], names[i], sources[i], long)
    text = text (theirs > 0 ? sprintf(" %.2f (%.1f) |", ours / theirs, theirs) : " - |")
  }
  return text
}

END {
  print "| | Fragment | GB/s | of ISA-L, aligned (its GB/s) | of ISA-L, by malloc | of plain C, aligned | of plain C, by malloc |"
  print "|---|---|---|---|---|---|---|"
  for (i = 1; i <= count; i++)
    for (long = 4096; long <= 65536; long *= 16)
      print row(i, long)
}
