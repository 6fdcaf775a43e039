# man.awk: writes the manual pages, linkinfo(3) and one for each call, from the comments of
# linkinfo.h:
#
#     awk -v folder=man -f man.awk linkinfo.h
#
# A comment whose first line is "NAME - TEXT" documents the call whose declaration follows it, or
# the library if NAME is linkinfo. In it "@PARAMETER: TEXT", "Return: TEXT", "Time: TEXT" and
# "Threads: TEXT" begin parts of a page, an empty line ends a paragraph, and lines that are indented
# by two spaces are code. A page of a call also has the structs and enums that its declaration
# names, and those that they name in turn.

# The text with each of a character replaced. (awks differ in what gsub makes of a backslash.)
function replaced(text, character, new,    at, result) {
  for (; (at = index(text, character)) > 0; text = substr(text, at + 1))
    result = result substr(text, 1, at - 1) new
  return result text
}

# Text of C or of a name, verbatim in roff.
function verbatim(text) {
  return replaced(replaced(replaced(text, "\\", "\\e"), "-", "\\-"), "'", "\\(aq")
}

# A line of prose in roff.
function prose(line) {
  line = replaced(line, "\\", "\\e")
  return line ~ /^[.']/ ? "\\&" line : line
}

function head(name, brief) {
  page = folder "/" name ".3"
  printf ".TH %s 3 \"\" \"linkinfo %s\" \"Library Functions Manual\"\n", name, version >page
  printf ".SH NAME\n%s \\- %s\n", verbatim(name), prose(brief) >page
  print ".SH LIBRARY\nliblinkinfo\n.RI ( \\-llinkinfo )" >page
  print ".SH SYNOPSIS\n.nf\n.B #include <linkinfo.h>" >page
}

function code(text) { printf ".P\n.in +4n\n.EX\n%s.EE\n.in\n", verbatim(text) >page }

# Prints the struct or enum of a name, after those that it names.
function print_type(name,    text, inner) {
  if (!(name in types) || name in printed || name in lists) return
  printed[name]
  text = types[name]
  while (match(text, /(struct|enum) linkinfo_[a-z_]+/)) {
    inner = substr(text, RSTART, RLENGTH)
    text = substr(text, RSTART + RLENGTH)
    if (inner != name) print_type(inner)
  }
  code(types[name])
}

# Prints the code that begins at a line of the block, and returns its last line.
function code_at(i,    text) {
  for (; block[i] ~ /^  / || (block[i] == "" && block[i + 1] ~ /^  /); i++)
    text = text substr(block[i], 3) "\n"
  code(text)
  return i - 1
}

# Whether a paragraph of text begins after a line of the block.
function text_after(i) {
  return block[i] == "" && i < lines && block[i + 1] !~ /^(@|Return: |Time: |Threads: |  )/
}

# Prints the text of the block outside its parts.
function text_of_block(    i, of) {
  for (i = first; i <= lines; i++) {
    if (block[i] == "" || block[i] ~ TAG) of = 0
    if (text_after(i)) {
      if (i > first) print ".P" >page
      of = 1
    } else if (block[i] ~ /^  /) {
      i = code_at(i)
    } else if (of) {
      print prose(block[i]) >page
    }
  }
}

# Prints the part of the block that begins with a tag, up to the next one or an empty line.
function part(tag,    i, line) {
  for (i = first; i <= lines && index(block[i], tag ": ") != 1; i++);
  line = substr(block[i], length(tag) + 3)
  if (tag !~ /^@/) line = toupper(substr(line, 1, 1)) substr(line, 2)
  do {
    print prose(line) >page
    line = block[++i]
  } while (i <= lines && line != "" && line !~ TAG)
}

function parameters(    i, name) {
  for (i = first; i <= lines; i++) {
    if (block[i] !~ /^@/) continue
    if (!name) print ".SH PARAMETERS" >page
    name = substr(block[i], 2, index(block[i], ":") - 2)
    printf ".TP\n.I %s\n", verbatim(name) >page
    part("@" name)
  }
}

# Whether the block has text outside its parts.
function has_text(    i) {
  for (i = first; i < lines; i++)
    if (text_after(i)) return 1
  return 0
}

# Prints the types that a declaration names.
function types_of(text) {
  split("", printed)
  if (text ~ /struct linkinfo_/) print ".SH TYPES" >page
  while (match(text, /struct linkinfo_[a-z_]+/)) {
    name = substr(text, RSTART, RLENGTH)
    text = substr(text, RSTART + RLENGTH)
    print_type(name)
  }
}

# Refers to the calls that the block names, and to linkinfo(3).
function see_also(    i, line, other, seen) {
  print ".SH SEE ALSO" >page
  for (i = first; i <= lines; i++) {
    line = block[i]
    gsub(/(enum|struct) linkinfo_[a-z_]+/, "", line)
    while (match(line, /linkinfo_[a-z_]+/)) {
      other = substr(line, RSTART, RLENGTH)
      line = substr(line, RSTART + RLENGTH)
      if (other != call && !(other in seen)) printf ".BR %s (3),\n", verbatim(other) >page
      seen[other]
    }
  }
  print ".BR linkinfo (3)" >page
}

# The page of a call.
function write_call() {
  gsub(/LINKINFO_NODISCARD /, "", declaration)
  gsub(/LINKINFO_RESTRICT/, "restrict", declaration)
  head(call, brief)
  printf ".P\n.B\n%s.fi\n", verbatim(declaration) >page
  parameters()
  if (has_text()) {
    print ".SH DESCRIPTION" >page
    text_of_block()
  }
  print ".SH RETURN VALUE" >page
  part("Return")
  types_of(declaration)
  print ".SH COMPLEXITY" >page
  part("Time")
  print ".SH ATTRIBUTES\nThread safety:" >page
  part("Threads")
  see_also()
  close(page)
  briefs[++calls] = brief
  names[calls] = call
}

# Takes the block that has ended: its first lines are the name and the brief text.
function take_block(    i) {
  if (block[1] !~ /^linkinfo[a-z_]* - /) return
  call = substr(block[1], 1, index(block[1], " ") - 1)
  brief = substr(block[1], length(call) + 4)
  for (first = 2; first <= lines && block[first] !~ /^(@|$)/; first++)
    brief = brief " " block[first]
  declaration = ""
  if (call != "linkinfo") return
  for (i = first; i <= lines; i++) about[i] = block[i]
  about_first = first
  about_lines = lines
  about_brief = brief
  call = ""
}

BEGIN { TAG = "^(@[a-z_]+|Return|Time|Threads): " }
BEGIN { split("enum linkinfo_family,enum linkinfo_kind,enum linkinfo_port_kind", only, ",") }
BEGIN { for (i in only) lists[only[i]] }

/^#define LINKINFO_VERSION_STRING/ { version = $3; gsub(/"/, "", version) }

/^\/\*$/ { in_block = 1; lines = 0; next }
in_block && /^ \*\/$/ { in_block = 0; take_block(); next }
in_block { line = $0; sub(/^ \* ?/, "", line); block[++lines] = line; next }

/^\/\* / { comment = $0 "\n"; in_comment = !/\*\/$/; next }
in_comment { comment = comment $0 "\n"; in_comment = !/\*\/$/; next }

/^(struct|enum) [a-z_]+ \{$/ { type = $1 " " $2; types[type] = comment; in_type = 1 }
in_type { types[type] = types[type] $0 "\n"; in_type = !/^};$/; next }

call != "" && /^[A-Za-z ]/ { declaration = declaration $0 "\n" }
call != "" && /;$/ { write_call(); call = "" }

END {
  head("linkinfo", about_brief)
  print ".P\ncc program.c $(pkg\\-config \\-\\-cflags \\-\\-libs linkinfo)\n.fi" >page
  print ".SH DESCRIPTION" >page
  for (i = about_first; i <= about_lines; i++) block[i] = about[i]
  first = about_first
  lines = about_lines
  text_of_block()
  print ".SH CALLS" >page
  for (i = 1; i <= calls; i++)
    printf ".TP\n.BR %s (3)\n%s\n", verbatim(names[i]), prose(briefs[i]) >page
  print ".SH NUMBERS" >page
  for (i = 1; i in only; i++) {
    type = only[i]
    delete lists[type]
    print_type(type)
  }
  print ".SH SEE ALSO\n.BR rtnetlink (7),\n.BR netlink (7),\n.BR ip\\-link (8)" >page
}
