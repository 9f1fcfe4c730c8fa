# The table of line mode: lines of a program, the fragments' bytes, the number of lines, on how many processors, its microseconds and its
# KiB.
{
  row = $2 SUBSEP $4
  if (!(row in lines)) {
    rows[++count] = row
    sizes[row] = $2
    processors[row] = $4
  }
  lines[row] = $3
  key = $1 SUBSEP row
  if (!(key in shortest) || $5 < shortest[key]) shortest[key] = $5
}

END {
  print "| Lines | fragment bytes | processors | ms | C program | ratio |"
  print "|---|---|---|---|---|---|"
  for (i = 1; i <= count; i++) {
    row = rows[i]
    ours = shortest["ours", row]
    peer = shortest["peer", row]
    printf "| %d | %d | %s | %.1f | %.1f | %.2f |\n", lines[row], sizes[row], processors[row], ours / 1000, peer / 1000, peer / ours
  }
}
