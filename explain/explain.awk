# Explains what the program has printed, in the form that editors and compilers use:
#
#     FILE:LINE:COLUMN: error: NAME: a sentence
#       the line
#            ^
#       help: what to do
#
# usage: LC_ALL=C awk -f explain.awk -- TABLE LAUNCHER WORD..    with what was printed on standard input
#
# TABLE is refusals.txt, and the words are those that the program was given. Columns are the program's: they count bytes.
# A file is read again only where it is a plain one.

BEGIN {
  read_table(ARGV[1])
  launcher = ARGV[2]
  read_words()
  ARGC = 1
  most_asked = 1000000000
}

# ---- what was printed

NR == 1 && /^refused: / { refusal = $0; next }
NR == 1 && /^read fault: / { unread = substr($0, 13); next }
NR == 1 && /^out of memory$/ { explain(program, 1, 1, "error", "out of memory", ""); next }
command == "check" && /^[0-9]+ (post|(assert|entry|keep) line [0-9]+): (verified|refuted|gave up [a-z]+)$/ {
  read_verdict()
}
/^  bits / { bits[verdicts] = $2 }
/^  outcomes / { outcomes[verdicts] = $2 }
/^  state / { add_term(verdicts, $2, $3) }

END {
  if (refusal != "") explain_refusal()
  if (unread != "") explain_read_fault()
  for (at = 1; at <= verdicts; at++) explain_verdict(at)
}

# Of the obligations that aren't verified: what each is for, its line, 0 at the end, and the verdict.
function read_verdict(parts) {
  owed++
  split($0, parts, ": ")
  if (parts[2] == "verified") return
  verdict[++verdicts] = parts[2]
  kind[verdicts] = $2 == "post:" ? "post" : $2
  line_of[verdicts] = $2 == "post:" ? 0 : $4 + 0
}

# One more amplitude of the state from which a refutation begins, as a term of a bracket.
function add_term(at, ket, amplitude, cut, coefficient, power, minus) {
  if (++terms[at] > 32) return
  cut = index(amplitude, ")/")
  coefficient = substr(amplitude, 1, cut)
  power = substr(amplitude, cut + 2)
  minus = coefficient == "(-1,0,0,0)"
  if (minus || coefficient == "(1,0,0,0)") coefficient = power > 0 ? "1" : ""
  if (power > 0) coefficient = coefficient "/sqrt2" (power > 1 ? "^" power : "")
  if (terms[at] > 1) state[at] = state[at] (minus ? " - " : " + ")
  else if (minus) state[at] = "-"
  state[at] = state[at] coefficient ket
}

# ---- the words and the table

function read_words(i, n, word, name) {
  command = ARGV[3]
  steps = 20000000
  for (i = 4; i < ARGC; i++) {
    word = ARGV[i]
    if (!ended && word == "--") ended = 1
    else if (!ended && word ~ /^--/) {
      name = substr(word, 3)
      if (index(name, "=")) { option[substr(name, 1, index(name, "=") - 1)] = substr(name, index(name, "=") + 1) }
      else option[name] = ARGV[++i]
    }
    else if (++n == 1) program = word
    else if (n == 2) sets = word
  }
  if ("steps" in option) steps = option["steps"] + 0
  pre = "pre" in option ? option["pre"] : "pre"
  post = "post" in option ? option["post"] : "post"
}

function read_table(file, text, key, cut) {
  while ((getline text < (file)) > 0) {
    if (text ~ /^[a-z]/) {
      cut = index(text, ": ")
      key = substr(text, 1, cut - 1)
      sentence[key] = substr(text, cut + 2)
    }
    else if (text ~ /^  help: /) help[key, "help"] = substr(text, 9)
    else if (match(text, /^  (at|after) [^ ]+: /)) help[key, substr(text, 3, RLENGTH - 4)] = substr(text, RLENGTH + 1)
  }
  close(file)
}

# The help for a word at the place of a fault, or behind the word before it, with what is known of the files in it.
function help_for(key, word, said) {
  said = help_by(key, "at", word)
  if (said == "" && key ~ / Unexpected$/) {
    if (key ~ /^sets/) scan_sets()
    else scan_program()
    said = help_by(key, "after", before_place)
  }
  if (said == "") said = help[key, "help"]
  if (said ~ /\{(names|bits|qubits)\}/) scan_program()
  if (said ~ /\{(sets|claims)\}/) scan_sets()
  said = filled(said, "{names}", declared == "" ? "none" : declared)
  said = filled(said, "{bits}", declared_bits == "" ? "none" : declared_bits)
  said = filled(said, "{qubits}", qubits == 1 ? "1 qubit" : (qubits + 0) " qubits")
  said = filled(said, "{sets}", named["set"] == "" ? "none" : named["set"])
  said = filled(said, "{claims}", named["claim"] == "" ? "none" : named["claim"])
  said = filled(said, "{sets_file}", sets)
  said = filled(said, "{word}", short(word))
  said = filled(said, "{before}", short(before_place))
  said = filled(said, "{name}", short(subject))
  said = filled(said, "{outcomes}", option["outcomes"])
  said = filled(said, "{more}", more)
  return filled(said, "{again}", again)
}

function help_by(key, where, word) {
  if ((key, where " " word) in help) return help[key, where " " word]
  if (word == "") return help[key, where " (start)"]
  if (word ~ /^[0-9]/) return help[key, where " (number)"]
  if (word ~ /^["']/) return help[key, where " (text)"]
  if (word ~ /^\|./) return help[key, where " (ket)"]
  if (word ~ /^[A-Za-z_]/) return help[key, where " (word)"]
  return ""
}

function filled(text, place, by, cut) {
  cut = index(text, place)
  if (!cut) return text
  return substr(text, 1, cut - 1) by filled(substr(text, cut + length(place)), place, by)
}

# ---- refusals

function explain_refusal(rest, name, place) {
  rest = substr(refusal, 10)
  if (match(rest, /^(program|sets) [0-9]+:[0-9]+: [A-Za-z0-9]+/)) {
    split(rest, place, /[ :]+/)
    explain(place[1] == "sets" ? sets : program, place[2], place[3], "error", place[1] " " place[4], "")
  }
  else if (rest == "program: TooLong") too_long(program, "program TooLong", 1048576)
  else if (rest == "sets: TooLong") too_long(sets, "sets TooLong", 4194304)
  else if (rest == "TooManyObligations") explain(program, 1, 1, "error", "run TooManyObligations", "")
  else if (rest ~ /^replay: [A-Za-z]+$/) explain_replay(substr(rest, 9))
  else if (match(rest, /: [A-Za-z]+$/)) {
    name = substr(rest, RSTART + 2)
    subject = substr(rest, 1, RSTART - 1)
    sub(/^[a-z]+ /, "", subject)
    if (rest ~ /^claim /) explain_claim(name)
    if (rest ~ /^set /) explain_set(name)
  }
}

# Where the byte behind the last one that is taken stands.
function too_long(file, key, most, text, line, before) {
  while (is_plain(file) && (getline text < (path(file))) > 0) {
    line++
    if (before + length(text) + 1 > most) break
    before += length(text) + 1
  }
  close(path(file))
  explain(file, line, most - before + 1, "error", key, "")
}

# A claim that isn't there is told where the program names it, or else where the set file ends.
function explain_claim(name) {
  scan_program()
  scan_sets()
  if (("claim", subject) in line_at) explain_name(sets, "claim", "claim " name)
  else if (subject != pre && subject != post && ("note", subject) in line_at) explain_name(program, "note", "claim " name)
  else explain(sets, sets_end_line, sets_end_column, "error", "claim " name, "")
}

# At the name that is told.
function explain_name(file, as, key) {
  explain(file, line_at[as, subject], column_at[as, subject], "error", key, "")
}

function explain_set(name, as) {
  scan_sets()
  as = ("set", subject) in line_at ? "set" : "claim"
  if ((as, subject) in line_at) explain_name(sets, as, "set " name)
  else explain(sets, sets_end_line, sets_end_column, "error", "set " name, "")
}

function explain_replay(name, text, column) {
  if (name == "NotLoopFree") {
    scan_program()
    explain(program, while_line, while_column, "error", "replay " name, "")
    return
  }
  if (name == "Wide") {
    subject = option["state"]
    scan_sets()
    explain_name(sets, "set", "replay " name)
    return
  }
  text = option["outcomes"]
  column = 1
  if (name == "BadOutcomes" && match(text, /[^01]/)) column = RSTART
  if (name == "ShortOutcomes") column = length(text) + 1
  if (name == "LongOutcomes") column = length(text)
  head("--outcomes", 1, column, "error", "replay " name)
  show(text, column, name == "Impossible" ? length(text) - 1 : 0)
  print "  help: " help_for("replay " name, "")
}

function explain_read_fault(why) {
  why = holds("-d", unread) ? "(folder)" : holds("-e", unread) ? "" : "(missing)"
  head(unread, 1, 1, "error", "read fault")
  print "  help: " help_for("read fault", why)
}

# ---- verdicts

function explain_verdict(at, line, column, text, key) {
  read_lines()
  line = line_of[at] ? line_of[at] : last_line
  text = lines[line]
  column = 1
  if (kind[at] == "assert") column = index(text, "@")
  else if (kind[at] == "post") { if (match(text, /[^ \t\r]/)) column = RSTART }
  else if (match(text, /(^|[^A-Za-z0-9_])while/)) column = RSTART + RLENGTH - 5
  if (column == 0) column = 1
  if (verdict[at] == "refuted") {
    again = how_again(at)
    key = "refuted " kind[at]
  }
  else {
    more = steps < most_asked ? "try `" with_steps(steps * 10) "`" : "its limit is the greatest one"
    key = verdict[at]
  }
  explain(program, line, column, verdict[at] == "refuted" ? "error" : "warning", key, text)
}

# How to play a refutation by hand. Only a program without cuts is played whole: then it owes one obligation.
function how_again(at, from, whole, played, weak) {
  from = terms[at] > 32 ? "[..]" : "[" state[at] "]"
  whole = owed == 1 && kind[at] == "post"
  weak = "; if no run gets there, the claim before it is too weak (docs/INVARIANTS.md)"
  if (bits[at] ~ /1/) return "play its statements by hand from " from " and these bits" weak
  played = quoted(launcher) " replay " (whole ? file_word(program) : "PART") " /dev/stdin --state shown"
  if (outcomes[at] != "-") played = played " --outcomes " outcomes[at]
  played = "echo 'set shown = " from ";' | " played
  if (terms[at] > 32) played = played ", with the state that is shown"
  return whole ? played : "with its statements as a program PART: " played weak
}

function with_steps(wanted, said) {
  if (wanted > most_asked) wanted = most_asked
  said = quoted(launcher) " check " file_word(program) " " file_word(sets)
  if ("pre" in option) said = said " --pre " quoted(option["pre"])
  if ("post" in option) said = said " --post " quoted(option["post"])
  return said sprintf(" --steps %.0f", wanted)
}

# ---- printing

# One place of a file, with its line where the file is there.
function explain(file, line, column, severity, key, text, word) {
  if (line == "") line = column = 1
  if (text == "" && key != "out of memory") text = line_of_file(file, line)
  word = word_at(text, column)
  place_line = line
  place_column = column
  head(file, line, column, severity, key)
  if (key ~ / NotUtf8$/) text = substr(text, 1, column - 1) "?"
  if (is_plain(file) && key != "out of memory") show(text, column, 0)
  print "  help: " help_for(key, word)
}

function head(file, line, column, severity, key, name) {
  name = key
  sub(/^(program|sets|claim|set|replay|run) /, "", name)
  sub(/^refuted .*/, "refuted", name)
  if (key in sentence) name = name ": " filled(sentence[key], "{name}", short(subject))
  print printable(file) ":" line ":" column ": " severity ": " name
}

# The line, or what is around the place in a long one, and the caret. A character of several bytes takes one column.
function show(text, column, more_columns, from, to, before) {
  from = 1
  to = length(text)
  if (to > 100) {
    if (column > 60) from = column - 60
    while (from > 1 && continues(substr(text, from, 1))) from--
    if (from + 99 < to) to = from + 99
    while (continues(substr(text, to + 1, 1))) to++
  }
  before = (from > 1 ? ".." : "") substr(text, from, column - from)
  gsub(/[\200-\277]/, "", before)
  gsub(/[^\t]/, " ", before)
  sub(/\r$/, "", text)
  print "  " (from > 1 ? ".." : "") printable(substr(text, from, to - from + 1)) (to < length(text) ? ".." : "")
  printf "  %s^", before
  while (more_columns-- > 0) printf "~"
  printf "\n"
}

function continues(byte) {
  return byte ~ /[\200-\277]/
}

function printable(text) {
  gsub(/[\001-\010\012-\037\177]/, "?", text)
  return text
}

# The word that stands at a column, `(end)` behind the last one.
function word_at(text, column, rest) {
  rest = substr(text, column)
  if (rest ~ /^[ \t\r]*$/) return "(end)"
  if (match(rest, /^[A-Za-z_][A-Za-z0-9_]*/) || match(rest, /^[0-9]+(\.[0-9]+)?/)) return substr(rest, 1, RLENGTH)
  if (match(rest, /^(==|->|\|[01]+>|"[^"]*"|'[^']*'|[^\001-\177][\200-\277]*)/)) return substr(rest, 1, RLENGTH)
  return substr(rest, 1, 1)
}

# ---- files

function path(file) {
  return file ~ /^\// ? file : "./" file
}

function quoted(word, parts, n, i, said) {
  if (word ~ /^[A-Za-z0-9_.,:\/%+@-]+$/) return word
  n = split(word, parts, "'")
  said = "'" parts[1]
  for (i = 2; i <= n; i++) said = said "'\\''" parts[i]
  return said "'"
}

# A file as a word of a command, where it isn't to look like an option.
function file_word(file) {
  return quoted(file ~ /^-/ ? "./" file : file)
}

function holds(test, file) {
  return system("test " test " " quoted(path(file))) == 0
}

function is_plain(file) {
  if (!(file in plain)) plain[file] = file != "" && holds("-f", file) && holds("-r", file)
  return plain[file]
}

function line_of_file(file, line, text, n) {
  if (!is_plain(file)) return ""
  while (n < line) {
    if ((getline text < (path(file))) <= 0) { text = ""; break }
    n++
  }
  close(path(file))
  return text
}

# All lines of the program, and the number of the last one that isn't blank.
function read_lines(text, n) {
  if (last_line) return
  last_line = 1
  while (is_plain(program) && (getline text < (path(program))) > 0) {
    lines[++n] = text
    if (text ~ /[^ \t\r]/) last_line = n
  }
  close(path(program))
}

# A piece of a line with blanks for its comments and for what is quoted. `inside` is the sign with which the open one ends.
function bare(rest, out, sign, cut) {
  while (1) {
    if (inside != "") {
      cut = index(rest, inside)
      if (!cut) return out
      out = out blanks(cut + length(inside) - 1)
      rest = substr(rest, cut + length(inside))
      inside = ""
    }
    if (!match(rest, /\/\/|\/\*|["']/)) return out rest
    sign = substr(rest, RSTART, RLENGTH)
    out = out substr(rest, 1, RSTART + RLENGTH - 1)
    rest = substr(rest, RSTART + RLENGTH)
    inside = sign == "//" ? "\n" : sign == "/*" ? "*/" : sign
    if (length(sign) == 2) out = substr(out, 1, length(out) - 2) "  "
  }
}

function blanks(n) {
  while (length(spaces) < n) spaces = spaces spaces "        "
  return substr(spaces, 1, n)
}

# Hands on the tokens of a line but those in comments and quotes. A long line is taken in pieces, so that its time grows
# with its length alone; none ends in the midst of a word or a sign.
function scan_line(text, line, of_program, at, end, rest, before, token, both) {
  both = "^[A-Za-z0-9_/*=|>\200-\377][A-Za-z0-9_/*=|>\200-\377]"
  for (at = 1; at <= length(text); at = end) {
    end = at + 2000
    while (end <= length(text) && substr(text, end - 1, 2) ~ both) end++
    rest = bare(substr(text, at, end - at))
    before = at - 1
    while (match(rest, /[A-Za-z_][A-Za-z0-9_]*|[0-9]+|==|->|\|[01]+>|[\300-\377][\200-\277]*|[^ \t\r]/)) {
      token = substr(rest, RSTART, RLENGTH)
      if (line < place_line || line == place_line && before + RSTART < place_column) before_place = token
      if (of_program) program_token(token, line, before + RSTART)
      else sets_token(token, line, before + RSTART)
      before += RSTART + RLENGTH - 1
      rest = substr(rest, RSTART + RLENGTH)
    }
  }
  if (inside != "*/") inside = ""
}

# The program's names, its number of qubits, its first loop, and where a note names a claim first.
function scan_program(text, line) {
  if (scanned["program"]++) return
  inside = ""
  while (is_plain(program) && (getline text < (path(program))) > 0) {
    line++
    if (inside == "" && text ~ /^[ \t\r]*@/) scan_note(text, line)
    else scan_line(text, line, 1)
  }
  close(path(program))
}

function scan_note(text, line, column, name) {
  if (!match(text, /^[ \t\r]*@(invariant|assert)[ \t\r]+/)) return
  column = RLENGTH + 1
  name = substr(text, column)
  if (match(name, /^[A-Za-z_][A-Za-z0-9_]*/)) note_place("note", substr(name, 1, RLENGTH), line, column)
}

# A declaration is over with the first token that has no place in it.
function program_token(token, line, column) {
  if (token == "while" && !while_line) { while_line = line; while_column = column }
  if (token ~ /^(qubit|qreg|bit|creg)$/) { declares = token; its_name = its_size = ""; return }
  if (declares == "" || token == "[" || token == "]") return
  if (token ~ /^[0-9]/) its_size = token
  else if (its_name == "" && token ~ /^[A-Za-z_]/) its_name = token
  else {
    if (its_name != "") declare(its_name (its_size == "" ? "" : "[" its_size "]"))
    declares = ""
  }
}

function declare(what) {
  declared = listed(declared, what)
  if (declares ~ /^(bit|creg)$/) declared_bits = listed(declared_bits, what)
  else qubits += its_size == "" ? 1 : its_size
}

function short(word) {
  return length(word) > 60 ? substr(word, 1, 60) ".." : word
}

# A list with one more, of 12 at most.
function listed(list, what, parts) {
  what = short(what)
  if (list == "") return what
  if (list ~ / \.\.$/) return list
  return list (split(list, parts, ", ") < 12 ? ", " what : ", ..")
}

function note_place(as, name, line, column) {
  if ((as, name) in line_at) return
  line_at[as, name] = line
  column_at[as, name] = column
}

# The names of sets and claims with their places, and where the file ends.
function scan_sets(text, line) {
  if (scanned["sets"]++) return
  inside = names = ""
  sets_end_line = sets_end_column = 1
  while (is_plain(sets) && (getline text < (path(sets))) > 0) {
    sets_end_line = ++line
    sets_end_column = length(text) + 1
    scan_line(text, line, 0)
  }
  close(path(sets))
}

function sets_token(token, line, column) {
  if (names != "" && token ~ /^[A-Za-z_]/) {
    named[names] = listed(named[names], token)
    note_place(names, token, line, column)
  }
  names = token ~ /^(set|claim)$/ ? token : ""
}
