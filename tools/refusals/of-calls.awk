# What the comment of each call says of its refusals, as "call N N .." with ranges written out: of a C header ("Refusals, in order: 7, 1, 2, 3 to 6, 12."),
# of Rust ("Refusals: 7, 1 to 6, 12.") and of a row of README's table. Between the numbers may stand of which list they are.

function written_out(text,    range, ends, n, line) {
  gsub(/[^0-9a-z,]+/, " ", text)
  while (match(text, /[0-9]+( to [0-9]+)?/)) {
    range = substr(text, RSTART, RLENGTH)
    text = substr(text, RSTART + RLENGTH)
    if (split(range, ends, " to ") == 1) ends[2] = ends[1]
    for (n = ends[1] + 0; n <= ends[2] + 0; n++) line = line " " n
  }
  return line
}

# A row of README's table may stand for several calls.
/^\| `ezk_/ {
  split($0, cells, / *\| */)
  count = split(cells[2], calls, ", ")
  for (i = 1; i <= count; i++) {
    gsub(/`|ezk_/, "", calls[i])
    print calls[i] written_out(cells[4])
  }
  next
}

/^(\/\*| \*|\/\/\/)/ { text = text " " $0; next }

/^(ezk_[a-z_]+ ezk_|pub fn )/ && match(text, /Refusals?(, in order)?: [^.]*/) {
  call = /^pub/ ? $3 : $2
  sub(/[(<].*/, "", call)
  sub(/^ezk_/, "", call)
  said = substr(text, RSTART, RLENGTH)
  sub(/.*: /, "", said)
  print call written_out(said)
}

{ text = "" }
