# entries.awk: the header estimators.h in, the same functions for Rust out, and how many slices of doubles each one takes.
# A declaration that it cannot read ends it with 1.

function fail(text) {
  print "compare/entries.awk: cannot read: " text > "/dev/stderr"
  failed = 1
  exit 1
}

# One parameter, `TYPE NAME`, as `NAME: TYPE`.
function parameter(text,    name, type) {
  sub(/^ +/, "", text)
  if (!match(text, /[a-z0-9_]+$/)) fail(text)
  name = substr(text, RSTART)
  type = substr(text, 1, RSTART - 1)
  sub(/ +$/, "", type)
  if (!(type in rust)) fail(text)
  return name ": " rust[type]
}

function declaration(text,    open, head, words, parameters, count, k, list, slices) {
  open = index(text, "(")
  head = substr(text, 1, open - 1)
  if (!open || split(head, words, " ") != 2 || !(words[1] in rust) || text !~ /\)$/) fail(text)
  count = split(substr(text, open + 1, length(text) - open - 1), parameters, ",")
  slices = 0
  for (k = 1; k <= count; k++) {
    list = list (k > 1 ? ", " : "") parameter(parameters[k])
    slices += parameters[k] ~ /^ *(size_t|uint64_t) [a-z0-9_]+_len$/ && parameters[k - 1] ~ /double \*/
  }
  functions = functions "    pub fn " words[2] "(" list ") -> " rust[words[1]] ";\n"
  table = table "    (\"" words[2] "\", " slices "),\n"
}

BEGIN {
  rust["double"] = "f64"
  rust["int32_t"] = "i32"
  rust["size_t"] = "usize"
  rust["uint64_t"] = "usize"
  rust["uint8_t"] = "u8"
  rust["ESTIMATORS_TOLD"] = "u8"
  rust["double *"] = "*mut f64"
  rust["const double *"] = "*const f64"
  rust["uint8_t *"] = "*mut u8"
  rust["const uint8_t *"] = "*const u8"
  rust["size_t *"] = "*mut usize"
  rust["uint64_t *"] = "*mut usize"
  rust["bool *"] = "*mut u8"
}

directive || /^#/ || /^extern "C" \{$/ || /^\}$/ { directive = /^#/ || directive ? /\\$/ : 0; next }
{ text = text " " $0 }

END {
  if (failed) exit 1
  while ((from = index(text, "/*")) > 0) {
    rest = substr(text, from + 2)
    to = index(rest, "*/")
    if (!to) fail("a remark without an end")
    text = substr(text, 1, from - 1) substr(rest, to + 2)
  }
  gsub(/ +/, " ", text)
  count = split(text, declarations, ";")
  for (k = 1; k <= count; k++) {
    gsub(/^ | $/, "", declarations[k])
    if (declarations[k] != "" && declarations[k] !~ /^typedef /) declaration(declarations[k])
  }
  print "#[link(name = \"estimators\", kind = \"static\")]\nextern \"C\" {\n" functions "}\n"
  print "/// Each function, and how many slices of doubles it takes.\npub const SLICES: &[(&str, usize)] = &[\n" table "];"
}
