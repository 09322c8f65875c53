# The refusals of each exported call, as "call name N N ..", by the definition that its contract equals its answer to; and those of every table of the
# specs, as "FILE name N N ..". They stand in the order of the rows; a table or an outcome counts with the rows of those that it names. Files: the specs,
# and the code of the exported calls. `numbers` has the lines "N name" of Numbers.antt.

BEGIN {
  while ((getline line <numbers) > 0) {
    split(line, words, " ")
    number[words[2]] = words[1]
  }
}

# An import: the file in which each of its names is defined.
/^(ghost )?use Rattle.*\.specs\..*\{/ {
  crate = $0
  sub(/^(ghost )?use Rattle[^a-z]*/, "", crate)
  sub(/[^a-z_].*/, "", crate)
  module = names = $0
  sub(/\.\{.*/, "", module)
  sub(/.*\./, "", module)
  gsub(/.*\{|\}.*/, "", names)
  count = split(names, each, /, */)
  for (i = 1; i <= count; i++) imported[FILENAME, each[i]] = "crates/" crate "/specs/" module ".antt"
  next
}

# A definition by its signature, its clauses and the lines that go on with them. One that gives rows is a table, over whatever type of refusal; that of several
# lists (`lists_rows`) counts with the rows of one.
/^(unfoldable |abbrev )?pub [A-Za-z_]+ : / {
  begin(/^pub/ ? $2 : $3)
  sub(/.*( :|→) /, "")
  if (name != "row" && /^(List )?\(?Row(Of [A-Z][A-Za-z]+)?\)?$|^Outcome(Of [A-Z][A-Za-z]+)? /) counts[key] = 1
  next
}
/^pub (record|data) / { begin(""); next }
FILENAME ~ /antt$/ && index($0, name " ") == 1 && / = / { sub(/^[^=]*= */, ""); body[key] = body[key] " " $0 }
FILENAME ~ /antt$/ && /^    / { body[key] = body[key] " " $0 }

# An exported call, and what its contract says first.
/^pub extern "C" fn ezk_/ { call = $5; sub(/\(.*/, "", call); sub(/^ezk_/, "", call); begin("call " call) }
FILENAME ~ /rt$/ && /^    ensures / && !(key in body) { body[key] = $0 }

function begin(new) {
  name = new
  key = FILENAME " " name
  known[++keys] = key
}

# What follows the test of a row, in brackets or not.
function after_test(text,    depth, i) {
  if (text !~ /^ *\(/) { sub(/^ *[A-Za-z_.]+/, "", text); return text }
  for (i = 1; i <= length(text); i++) {
    if (substr(text, i, 1) == "(") depth++
    if (substr(text, i, 1) == ")" && --depth == 0) return substr(text, i + 1)
  }
}

# The numbers of a definition; one that is being looked at adds none to itself.
function rows(key,    file, text, word, line) {
  if (key in found) return found[key]
  found[key] = ""
  file = key
  sub(/ .*/, "", file)
  text = body[key]
  while (match(text, /[A-Za-z_.]+/)) {
    word = substr(text, RSTART, RLENGTH)
    text = substr(text, RSTART + RLENGTH)
    sub(/.*\./, "", word)
    if (word == "row" || word == "refusal") {
      if (word == "row") text = after_test(text)
      match(text, /[A-Za-z_.]+/)
      given = substr(text, RSTART, RLENGTH)
      text = substr(text, RSTART + RLENGTH)
      sub(/.*\./, "", given)
      if (given in number) line = line " " number[given]
      else if (word == "row") line = line " ?" given
    } else if ((file " " word) in counts) line = line rows(file " " word)
    else if ((imported[file, word] " " word) in counts) line = line rows(imported[file, word] " " word)
  }
  return found[key] = line
}

# Without the same number twice in a row: two buffers are one refusal.
function once(line,    parts, count, i, said) {
  count = split(line, parts, " ")
  for (i = 1; i <= count; i++) if (parts[i] != parts[i - 1]) said = said " " parts[i]
  return said
}

END {
  for (i = 1; i <= keys; i++) {
    line = once(rows(known[i]))
    if (known[i] ~ / call /) { sub(/.* call /, "call ", known[i]); print known[i] line }
    else if (line != "" && known[i] in counts) print known[i] line
  }
}
