# Makes the calls that heavy.h declares, in C, of those that are proved: these have `proved_` in place of `heavy_` in their
# names, and take no NULL. NULL becomes the address of a handle with no value, of a fault that nobody asks for, or of a slice
# of length 0. What makes a handle takes memory for it, and heavy_free gives that back.
#
# usage: awk -f bin/calls.awk include/heavy.h
{ text = text $0 " " }

END {
  print "#include \"heavy.h\"\n#include <stdlib.h>\n"
  print "/* What a handle is: the address of its value, whether there is one, and the words of a hash. */"
  print "struct heavy {\n    void *place;\n    uint64_t full;\n    struct heavy_hash hash;\n};\n"
  print "static uint64_t nothing;\n"
  gsub(/ +/, " ", text)
  while (match(text, /(uint32_t|size_t|void) heavy_[a-z_]+\([^()]*\);/)) {
    put_call(substr(text, RSTART, RLENGTH))
    text = substr(text, RSTART + RLENGTH)
  }
}

function put_call(line,   kind, name, words, count, i, type, word, lent, makes, frees, called) {
  kind = substr(line, 1, index(line, " ") - 1)
  name = substr(line, index(line, " heavy_") + 7)
  name = substr(name, 1, index(name, "(") - 1)
  line = substr(line, index(line, "(") + 1)
  sub(/\);$/, "", line)
  count = split(line, words, ", ")
  makes = line ~ /struct heavy \*\*/
  frees = name == "free"
  printf "%s proved_%s(%s);\n", kind, name, makes ? substr(line, 1, 14) substr(line, 16) : line
  printf "%s heavy_%s(%s) {\n", kind, name, line
  if (line ~ /struct heavy \*[a-z]/) print "    struct heavy none = {0};"
  if (line ~ /struct heavy \*other/) print "    struct heavy no_other = {0};"
  if (line ~ /struct heavy_fault \*fault$/) print "    struct heavy_fault told;"
  for (i = 1; i <= count; i++) {
    type = words[i]
    word = type
    sub(/.*[ *]/, "", word)
    if (type == "void") word = ""
    else if (type == "struct heavy **heavy") word = "made"
    else if (type == "struct heavy *heavy") word = "heavy ? heavy : &none"
    else if (type == "struct heavy *other") word = "other && other != heavy ? other : &no_other"
    else if (type == "struct heavy_fault *fault") word = "fault ? fault : &told"
    else if (type ~ /\*/ && words[i + 1] ~ /^size_t (.*_len|count)$/) word = word " ? " word " : (void *)&nothing"
    lent = lent (i > 1 ? ", " : "") word
  }
  called = "proved_" name "(" lent ")"
  if (makes) {
    print "    struct heavy *made = malloc(sizeof *made);"
    print "    if (!made) {\n        *(fault ? fault : &told) = (struct heavy_fault){HEAVY_NO_MEMORY, 0, 0};\n        return HEAVY_MEMORY;\n    }"
    print "    *made = (struct heavy){0};"
    printf "    uint32_t status = %s;\n", called
    print "    if (status == HEAVY_DONE)\n        *heavy = made;\n    else\n        free(made);\n    return status;"
  } else if (frees) printf "    %s;\n    free(heavy);\n", called
  else printf "    return %s;\n", called
  print "}\n"
}
