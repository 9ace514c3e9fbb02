#!/usr/bin/env bash
# What a reader has to read to trust the headline: the clause `headline` of `check`, each definition that it reaches by
# names, and each type that they speak of: its declaration and, where it has one, its model (what a contract sees it as).
# Words of the standard library are followed no further. An invariant is left out: it is proved of each value; so is the law
# of a trait of boxes: it is proved of each type that is a bound, and who calls `check` has nothing to show for it. The files
# that define all this are to be those of the list in docs/PROVED.md, between the lines ```reading and ```, one a line with
# its path first. Prints how many definitions and lines there are; then the same of who reads the clause `ok` of `run_check`,
# from texts to the report, but for its last part, that the bytes are a certificate. With the word `names`, first each file
# of the headline with what is to be read in it; with `report`, those of `run_check`. Ends with status 1 where the list lacks
# a file or has one too many, or where a name is not found.
set -u
cd "$(dirname "$(readlink -f "$0")")/../.." || exit 1
work=$(mktemp -d) || exit 1
trap 'rm -rf "$work"' EXIT
wrong=0

follow() {
  grep -HE '^pub (struct|enum|trait) ' crates/pg_*/src/*.rt | awk -v start="$1" -v call="$2" -v clause="$3" '
    # The file of a module, with the type that it names where it is one: a path, or "" for a library of the kit.
    function path_of(module,   parts, n, i, path) {
      n = split(module, parts, ".")
      if (parts[1] != "Rattle" || parts[2] !~ /^pg_/ || parts[3] != "specs") return ""
      path = "crates/" parts[2]
      if (parts[4] == "declared") return path "/src/" parts[5] ".rt " parts[6]
      path = path "/specs"
      for (i = 4; i <= n; i++) path = path "/" parts[i]
      return path ".antt"
    }
    # The names between the braces of an import become known in the scope: a file, or a block of one.
    function import(scope, line,   module, names, n, i, pair, known, at) {
      sub(/^ *((ghost|pub) )?use /, "", line)
      module = line
      sub(/\.\{.*/, "", module)
      sub(/^[^{]*\{/, "", line)
      sub(/\};?$/, "", line)
      n = split(line, names, /, */)
      for (i = 1; i <= n; i++) {
        split(names[i], pair, " as ")
        known = length(pair[2]) ? pair[2] : pair[1]
        at = path_of(module)
        sub(/^◌/, "", known)
        sub(/◌.*/, "", known)
        if (known == "[]") known = "empty list"
        imported[scope, known] = at == "" ? "library " pair[1] : at ~ / / ? at : at " " pair[1]
      }
    }
    # Imports of Rust: names of this crate or of one below, by the index of all types.
    function import_types(scope, crate, line,   from, names, n, i) {
      sub(/^use /, "", line)
      from = line ~ /^crate::/ ? crate : line
      sub(/::.*/, "", from)
      gsub(/[{},;]/, " ", line)
      gsub(/::/, " ", line)
      n = split(line, names, " ")
      for (i = 1; i <= n; i++)
        if ((from, names[i]) in type_file) imported[scope, names[i]] = type_file[from, names[i]] " " names[i]
    }
    # Cuts a file of specs/ into its items: each has the lines that begin with its name, and what is indented below them.
    function load_specs(file,   line, words, n, i, name) {
      while ((getline line < file) > 0) {
        if (line ~ /^(pub )?use /) { import(file, line); continue }
        if (line ~ /^ *--/ || line ~ /^ *$/ || line ~ /^unfolding /) continue
        if (line !~ /^[ )\]]/) {
          n = split(line, words, " ")
          for (i = 1; i <= n && words[i] ~ /^(abbrev|unfoldable|pub|record|data)$/; i++) {}
          name = words[i]
          here[file, name] = 1
        }
        text[file, name] = text[file, name] line "\n"
        lines[file, name]++
      }
      close(file)
    }
    # Finds in a file of src/ the types, with their models, and the traits; and of the function of the start its clause.
    function load_source(file,   line, more, crate, name, block, scope, parts, own, within) {
      split(file, parts, "/")
      crate = parts[2]
      while ((getline line < file) > 0) {
        while (line ~ /^ *(ghost )?use / && line !~ /;$/ && (getline more < file) > 0) line = line more
        if (line ~ /^ghost use /) { import(file, line); continue }
        if (line ~ /^use /) { import_types(file, crate, line); continue }
        if (line ~ /^ *(\/\/|#)/ || line ~ /^ *$/) continue
        if (block == "" && line ~ /^pub (struct|enum|trait) /) {
          split(line, parts, /[ :<{(;]+/)
          name = parts[3]
          here[file, name] = 1
          block = "declaration"
        } else if (line ~ /^impl Model for /) {
          split(line, parts, " ")
          name = parts[4]
          block = "model"
          scope = file " " name
          own = 0
        } else if (index(line, "pub fn " call "<") == 1) {
          name = call
          here[file, name] = 1
          block = "call"
        }
        if (block == "model" && line ~ /^ *ghost use /) { import(scope, line); own = 1 }
        if (block == "declaration" || (block == "model" && line ~ /ghost (Value|view) =/)) {
          text[file, name] = text[file, name] line "\n"
          lines[file, name]++
        }
        if (block == "model" && line ~ /^}/) has_scope[file, name] = own
        if (block == "call" && line ~ /^    [a-z_]+: /) parameters[file] = parameters[file] line "\n"
        if (block == "call" && line ~ /^    ensures |^{|\(proved : Proved\)/) within = index(line, "    ensures " clause " ") == 1
        if (block == "call" && within) {
          text[file, name] = text[file, name] line "\n"
          lines[file, name]++
        }
        if (line ~ /^}/ || (block == "declaration" && line ~ /;$/ && line ~ /^pub/)) block = ""
      }
      close(file)
      if (parameters[file] != "") text[file, call] = text[file, call] spoken_of(file)
    }
    # The types of the parameters that the clause names.
    function spoken_of(file,   rows, n, i, name, all) {
      n = split(parameters[file], rows, "\n")
      for (i = 1; i <= n; i++) {
        name = rows[i]
        sub(/^ */, "", name)
        sub(/:.*/, "", name)
        if (name != "" && text[file, call] ~ ("[ (]" name "[.) ]")) all = all rows[i] "\n"
      }
      return all
    }
    function reach(file, name,   parts) {
      if ((file, name) in reached) return
      reached[file, name] = 1
      if (!(file in loaded)) {
        loaded[file] = 1
        if (file ~ /\.rt$/) load_source(file)
        else load_specs(file)
      }
      if (!((file, name) in here) && ((file, name) in imported) && imported[file, name] !~ /^library/) {
        split(imported[file, name], parts, " ") # handed on from another file
        reach(parts[1], parts[2])
        return
      }
      if (!((file, name) in here)) {
        print "missing " file " " name
        return
      }
      queue[++last] = file " " name
    }
    # Follows the names of an item, by its own block of imports, its file, and the library.
    function follow(file, name,   body, words, n, i, found, parts) {
      body = text[file, name]
      gsub(/\.[a-z_][A-Za-z_-]*/, " ", body)
      if (body ~ /\[\]/ && (file, "empty list") in imported) library["[]"] = 1
      gsub(/[][(){},;:.]/, " ", body)
      if (file ~ /\.rt$/) gsub(/[&<>]/, " ", body)
      n = split(body, words, /[ \n]+/)
      for (i = 1; i <= n; i++) {
        if (words[i] == name) continue
        found = ""
        if (has_scope[file, name] && ((file " " name), words[i]) in imported) found = imported[file " " name, words[i]]
        else if ((file, words[i]) in imported) found = imported[file, words[i]]
        else if ((file, words[i]) in here) found = file " " words[i]
        if (found == "") continue
        split(found, parts, " ")
        if (parts[1] == "library") library[parts[2]] = 1
        else reach(parts[1], parts[2])
      }
    }
    # The index of all types, from the lines that grep gives.
    {
      split($0, parts, /[\/:]/)
      split($0, words, /[ :<{(;]+/)
      file = $0
      sub(/:.*/, "", file)
      type_file[parts[2], words[4]] = file
    }
    END {
      reach(start, call)
      for (first = 1; first <= last; first++) {
        split(queue[first], parts, " ")
        follow(parts[1], parts[2])
        print "read " parts[1] " " parts[2] " " lines[parts[1], parts[2]]
      }
      for (word in library) print "library " word
    }'
}

# How many definitions, lines, files and words of the library were found.
count() {
  awk -v files="$(awk '$1 == "read" { print $2 }' "$1" | sort -u | wc -l)" '
    $1 == "read" { definitions++; lines += $4 }
    $1 == "library" { words++ }
    END { printf "%d definitions, %d lines, in %d files; %d words of the library\n", definitions, lines, files, words }' "$1"
}

follow crates/pg_checker/src/certify.rt check headline | sort >"$work/check"
follow crates/pg_report/src/run.rt run_check ok | sort >"$work/report"
awk '$1 == "read" { print $2 }' "$work/check" | sort -u >"$work/files"
awk '/^```reading$/ { within = 1; next } /^```$/ { within = 0 } within { print $1 }' docs/PROVED.md | sort >"$work/listed"
case "${1-}" in names) shown=check ;; report) shown=report ;; *) shown= ;; esac
[ -z "$shown" ] || awk '$1 == "read" { names[$2] = names[$2] " " $3 } $1 == "library" { names["library"] = names["library"] " " $2 }
  END { for (file in names) print file ":" names[file] }' "$work/$shown" | sort
if grep '^missing' "$work/check" "$work/report" >&2; then wrong=1; fi
diff "$work/listed" "$work/files" >"$work/difference" || {
  echo 'docs/PROVED.md: the list of what to read is another (> is a file that it lacks, < one too many)' >&2
  grep '^[<>]' "$work/difference" >&2
  wrong=1
}
echo "for check: $(count "$work/check")"
echo "for run_check: $(count "$work/report")"
exit "$wrong"
