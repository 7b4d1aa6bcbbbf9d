#!/bin/sh
# Counts the places of points 1 to 8, from the top of a checkout.
#   sh count_places.sh            one line for each point and crate: POINT CRATE COUNT
#   sh count_places.sh list [P]   each place: POINT CRATE FILE:LINE NAME NOTE, of point P alone where it is given
#   sh count_places.sh groups     how many functions have each fact and each group of parameters of point 5
# sh, awk and mktemp. It reads crates/*/src and crates/*/proofs and writes only to a temporary folder. The patterns are about shapes;
# those of 1e, 1f, 4e, 4f, 5c, 6c and 6d also go by names and comments, so a place under a new name has to be looked for by reading.
LC_ALL=C
export LC_ALL
T=$(mktemp -d) || exit 1
trap 'rm -rf "$T"' EXIT HUP INT TERM

# Every function, type and constant of src/, one to a line, fields parted by tabs, the lines of a body by \037:
# fn crate file line name signature contract body · struct|enum|type|const crate file line name body
find crates -name out -prune -o -path '*/src/*.rt' -print | sort | xargs awk '
function ind(s) { match(s, /^ */); return RLENGTH }
function braces(s, a, b) { a = gsub(/\{/, "{", s); b = gsub(/\}/, "}", s); return a - b }
FNR == 1 { st = 0; split(FILENAME, part, "/"); crate = part[2]; doc = ""; owner = "" }
{
  raw = $0
  line = raw
  sub(/^[ ]*\/\/.*$/, "", line)
  sub(/[ ]+\/\/ .*$/, "", line)
  gsub(/\t/, " ", line)
}
st == 0 && raw ~ /^ *\/\// { doc = doc " " raw; next }
st == 0 && line ~ /^ *#\[/ { next }
st == 0 && line ~ /^impl/ { owner = line; sub(/ *\{.*$/, "", owner); sub(/^.* for /, "", owner); sub(/^impl(<[^>]*>)? */, "", owner); gsub(/<.*$/, "", owner); next }
st == 0 && line ~ /^}/ { owner = "" }
st == 0 && line ~ /^ *(pub(\([a-z]+\))? +)?(const +|unsafe +|extern +"C" +)*fn +[A-Za-z_0-9]+/ {
  st = 1; depth = ind(line); from = FNR; sig = ""; con = ""; body = ""; open = 0
  name = line; sub(/^.*fn +/, "", name); sub(/[^A-Za-z_0-9].*$/, "", name)
  if (owner != "" && depth > 0) name = owner "::" name
  mydoc = doc; doc = ""
}
st == 1 {
  if (open > 0) { con = con " " line; open += braces(line); if (open <= 0 && line ~ /; *$/) st = 0; next }
  if (line ~ /^ *(requires|ensures)/) { con = con " " line; open = braces(line); if (open <= 0 && line ~ /; *$/) st = 0; next }
  if (line ~ /^ *\{ *$/) { st = 2; next }
  if (line ~ /\{.*\} *$/ && con == "") {
    body = line; sub(/^[^{]*\{/, "", body); sub(/\} *$/, "", body)
    sub(/\{.*$/, "", line); sig = sig " " line; st = 0
    print "fn\t" crate "\t" FILENAME "\t" from "\t" name "\t" sig "\t" con "\t" body "\t" mydoc; next
  }
  if (line ~ /\{ *$/) { sub(/\{ *$/, "", line); sig = sig " " line; st = 2; next }
  if (line ~ /; *$/) { st = 0; next }
  sig = sig " " line; next
}
st == 2 {
  if (line ~ /^ *\} *$/ && ind(line) == depth) {
    print "fn\t" crate "\t" FILENAME "\t" from "\t" name "\t" sig "\t" con "\t" body "\t" mydoc; st = 0; next
  }
  if (line !~ /^ *$/) body = body line "\037"
  next
}
st == 0 && line ~ /^ *(pub(\([a-z]+\))? +)?(struct|enum) +[A-Za-z_0-9]+/ {
  kind = line; sub(/^ *(pub(\([a-z]+\))? +)?/, "", kind); tname = kind; sub(/ .*$/, "", kind)
  sub(/^[a-z]+ +/, "", tname); sub(/[^A-Za-z_0-9].*$/, "", tname); doc = ""
  if (line ~ /[;}] *$/) { body = line; sub(/^[^({]*[({]/, "", body); print kind "\t" crate "\t" FILENAME "\t" FNR "\t" tname "\t" body; next }
  st = 3; from = FNR; depth = ind(line); body = ""; next
}
st == 3 {
  if (line ~ /^ *\} *$/ && ind(line) == depth) { print kind "\t" crate "\t" FILENAME "\t" from "\t" tname "\t" body; st = 0; next }
  sub(/^ *#\[.*$/, "", line); body = body line " "; next
}
st == 0 && line ~ /^ *(pub(\([a-z]+\))? +)?(const|type) +[A-Za-z_0-9]+/ {
  kind = line; sub(/^ *(pub(\([a-z]+\))? +)?/, "", kind); tname = kind; sub(/ .*$/, "", kind)
  sub(/^[a-z]+ +/, "", tname); body = tname; sub(/[^A-Za-z_0-9].*$/, "", tname); sub(/^[A-Za-z_0-9]+/, "", body)
  print kind "\t" crate "\t" FILENAME "\t" FNR "\t" tname "\t" body; doc = ""; next
}
st == 0 && line !~ /^ *$/ { doc = "" }
' > "$T/all"
grep '^fn	' "$T/all" > "$T/fns"

place() { cat >> "$T/places"; }
: > "$T/places"

# ---- point 1 ----
# 1a enums of the shape of Option or Result, or with a refusal among their answers
# 1b structs with a flag, a verdict or a number of a kind and values beside it
awk -F '\t' '
NR == FNR { if ($1 == "enum") {
    b = $6; gsub(/\([^)]*\)/, "(&)", b); sub(/^ */, "", b)
    n = 0; pay = 0; ref = 0; depth = 0; cur = ""
    for (i = 1; i <= length(b); i++) { ch = substr(b, i, 1)
      if (ch == "(" || ch == "<" || ch == "{") depth++
      if (ch == ")" || ch == ">" || ch == "}") depth--
      if (ch == "," && depth == 0) { v[++n] = cur; cur = "" } else cur = cur ch }
    if (cur ~ /[A-Za-z]/) v[++n] = cur
    for (i = 1; i <= n; i++) { if (v[i] ~ /\(/) pay++; if (v[i] ~ /\(\(Refusal\)\)|Faulty/) ref = 1 }
    if ((n == 2 && pay >= 1) || (ref && pay >= 1)) { own[$5] = 1; print "1a\t" $2 "\t" $3 ":" $4 "\t" $5 "\tenum of " n ", " pay " with a value" }
  } next }
$1 == "struct" {
    b = $6; gsub(/pub(\([a-z]+\))? /, "", b); m = split(b, f, ","); fields = 0; why = ""
    for (i = 1; i <= m; i++) { if (f[i] !~ /:/ || f[i] ~ /ghost/) continue; fields++
      nm = f[i]; sub(/:.*/, "", nm); gsub(/ /, "", nm); ty = f[i]; sub(/^[^:]*: */, "", ty); gsub(/ /, "", ty)
      if (ty == "bool") why = why ", flag " nm
      else if (ty in own) why = why ", " nm ": " ty
      else if (nm ~ /^(fault|word|number|kind|call|question|short|which)$/ && ty ~ /^(u8|u16|u32|u64|usize)$/) why = why ", " nm " as a number" }
    if (fields >= 2 && why != "") print "1b\t" $2 "\t" $3 ":" $4 "\t" $5 "\t" fields " fields:" substr(why, 2)
}' "$T/all" "$T/all" | place
# 1c a flag among the parameters with its value beside it
awk -F '\t' '$6 ~ /[a-z_]+: bool/ { s = $6; n = gsub(/[a-z_]+: /, "&", s); if (n >= 2) { f = $6; match(f, /[a-z_]+: bool/); print "1c\t" $2 "\t" $3 ":" $4 "\t" $5 "\tparameter " substr(f, RSTART, RLENGTH) } }' "$T/fns" | place
# 1d constants that number kinds: compared with, matched, answered or passed as a kind
awk -F '\t' '
NR == FNR { if ($1 == "fn") body[$2] = body[$2] " " $8; next }
$1 == "const" && $6 ~ /^: u(8|16|32|64|size) =/ {
    k = $5; b = body[$2]
    if (match(b, "[^<>!]== " k "[^A-Za-z_0-9]") || match(b, "[^A-Za-z_0-9]" k " =>") || match(b, "=> " k ",") || match(b, "(same[a-z_]*|refuse)\\([a-z]+, " k ",") || match(b, "[( ]" k ", *\037 *[a-z0-9]+, *\037") && match(b, "same[a-z_]*\\( *\037[^)]*[^A-Za-z_0-9]" k ",") || match(b, "(call|kind|which|what|question|word)(:| <) " k "[^A-Za-z_0-9]") || match(b, "\\{ " k " \\} else \\{ [A-Z]+ \\}") || match(b, "else \\{ " k " \\}") || match(b, "plain\\(" k ",") || match(b, "number: " k ",") || match(b, "to_tell\\(" k ",") || match(b, "word: " k ","))
      print "1d\t" $2 "\t" $3 ":" $4 "\t" k "\tconst" $6 }' "$T/all" "$T/all" | place
# 1e kinds passed or answered as numbers
awk -F '\t' '
{ why = ""
  if (match($6, /(kind|call|which|what|short|question|changed): u(8|16|32|64|size)/)) why = "takes " substr($6, RSTART, RLENGTH)
  else if ($5 ~ /refus|read_behind|say_met|to_tell|same_number/ && $6 ~ /number: u64/) why = "takes a refusal number"
  else if ($5 ~ /refus|faulty/ && $6 ~ /fault: usize/) why = "takes the number of a fault"
  if ($6 ~ /-> u(8|16|32|64)/ && ($6 ~ /: (Refusal|Verdict|Listing|Answer)/ || $5 ~ /^follow_number$|^replay|^word_at$/ || $5 ~ /^(draw_)?wrong_/ && $8 ~ /(^|\037) *[4-8] *\037|\{ [4-8] \}|=> wrong_|return wrong_/)) why = why (why == "" ? "" : "; ") "answers a number of a kind"
  if (why != "") print "1e\t" $2 "\t" $3 ":" $4 "\t" $5 "\t" why }' "$T/fns" | place
# 1f a number or a length that stands for "none"
awk -F '\t' '$9 ~ /0 for none|[ ,]0 where|or 0 |length where|where none does|where (there|it) (is|has) none|0, or 3|0 on a refusal|or the end of|an empty one, which|has the empty part/ && $6 ~ /-> (u8|u16|u32|u64|usize|EventNumber|&.*)/ { print "1f\t" $2 "\t" $3 ":" $4 "\t" $5 "\ta number stands for none" }' "$T/fns" | place

# 1g functions that only build the value of a refusal or of none; 1h tests by which a refusal or none is handed on
awk -F '\t' '
{ n = split($8, l, "\037"); one = $8; gsub(/\037/, " ", one); gsub(/ +/, " ", one)
  if (one ~ /^ *[A-Z][A-Za-z]+ \{.*\} *$/ && one ~ /(fits|known|passed|found): false|begun: false, cut: (Cut|1)|Refused\(|NOTHING|fault,|verdict, counts: \[0/ && one !~ /halt/) print "1g\t" $2 "\t" $3 ":" $4 "\t" $5 "\tbuilds a refusal or none"
  else if (one ~ /^ *[a-z_]+\(NOTHING,.*\) *$/) print "1g\t" $2 "\t" $3 ":" $4 "\t" $5 "\tbuilds a refusal or none"
  h = 0
  for (i = 1; i <= n; i++) if (l[i] ~ /let [A-Z][A-Za-z]+::[A-Z][a-z]+(\([a-z]+\))? = .* else \{/ || l[i] ~ /::(Refused|Refuses)\([a-z_]*\) =>/ || l[i] ~ /::Faulty =>/ || l[i] ~ /if !?[a-z_]+\.(fits|known|passed|found|begun) \{/ || l[i] ~ /fault != 0/) h++
  if (h) print "1h\t" $2 "\t" $3 ":" $4 "\t" $5 "\t" h (h == 1 ? " test" : " tests") }' "$T/fns" | place

# ---- point 2 ----
# Functions of at least 20 tokens whose bodies are the same once every name is replaced by the order of its first use, and every
# number and string by a mark (2a); the same with types and names all alike (2b, at least 30 tokens, not in 2a)
awk -F '\t' '
function keyword(t) { return t ~ /^(let|mut|if|else|while|loop|for|in|return|match|as|break|continue|fn|pub|crate|self|Self|true|false|impl|where|ref|move|const|struct|enum|bool)$/ }
{
  s = $6; sub(/^.*fn +[A-Za-z_0-9]+/, "", s); s = s " { " $8 " }"; gsub(/\037/, " ", s)
  gsub(/b?"[^"]*"/, " STR ", s); gsub(/b\x27[^\x27]*\x27/, " 0 ", s); gsub(/pub(\([a-z]+\))? /, "", s)
  k = ""; loose = ""; n = 0; id = 0; split("", seen)
  while (s != "") {
    if (match(s, /^ +/)) { s = substr(s, RLENGTH + 1); continue }
    if (match(s, /^[A-Za-z_][A-Za-z_0-9]*/)) { t = substr(s, 1, RLENGTH); s = substr(s, RLENGTH + 1)
      if (keyword(t)) { x = t; y = t } else { if (!(t in seen)) seen[t] = ++id; x = "v" seen[t]; y = "v" } }
    else if (match(s, /^[0-9][0-9A-Za-z_]*/)) { s = substr(s, RLENGTH + 1); x = y = "0" }
    else { x = y = substr(s, 1, 1); s = substr(s, 2); if (x == ",") continue }
    k = k " " x; loose = loose " " y; n++ }
  if (n < 20) next
  c++; key[c] = k; lo[c] = loose; num[c] = n; cr[c] = $2; at[c] = $3 ":" $4; nm[c] = $5
  cnt[k]++; lcnt[loose]++
}
END {
  for (i = 1; i <= c; i++) {
    if (cnt[key[i]] > 1) { if (!(key[i] in g)) g[key[i]] = ++gid; print "2a\t" cr[i] "\t" at[i] "\t" nm[i] "\tgroup " g[key[i]] " of " cnt[key[i]] ", " num[i] " tokens" }
    else if (lcnt[lo[i]] > 1 && num[i] >= 30) { if (!(lo[i] in h)) h[lo[i]] = ++hid; print "2b\t" cr[i] "\t" at[i] "\t" nm[i] "\tgroup " h[lo[i]] " of " lcnt[lo[i]] ", " num[i] " tokens" }
  }
}' "$T/fns" | place
# 2c functions of one name in two crates, of at least 8 tokens, at least half alike; 2d other pairs of at least 25 tokens, at least
# seven tenths alike: by the share of their runs of three tokens, numbers and strings marked
awk -F '\t' '
function keyword(t) { return t ~ /^(let|mut|if|else|while|loop|for|in|return|match|as|break|continue|fn|pub|crate|self|Self|true|false|impl|where|ref|move|const|struct|enum|bool|u8|u16|u32|u64|usize)$/ }
{
  s = $6; sub(/^.*fn +[A-Za-z_0-9]+/, "", s); s = s " { " $8 " }"; gsub(/\037/, " ", s)
  gsub(/b?"[^"]*"/, " STR ", s); gsub(/b\x27[^\x27]*\x27/, " 0 ", s); gsub(/pub(\([a-z]+\))? /, "", s)
  n = 0; p1 = p2 = "^"; split("", bag); c++
  while (s != "") {
    if (match(s, /^ +/)) { s = substr(s, RLENGTH + 1); continue }
    if (match(s, /^[A-Za-z_][A-Za-z_0-9]*/)) { t = substr(s, 1, RLENGTH); s = substr(s, RLENGTH + 1) }
    else if (match(s, /^[0-9][0-9A-Za-z_]*/)) { s = substr(s, RLENGTH + 1); t = "0" }
    else { t = substr(s, 1, 1); s = substr(s, 2); if (t == ",") continue }
    n++; g = p1 " " p2 " " t; p1 = p2; p2 = t
    if (!(g in gi)) gi[g] = ++gn
    if (!((c, gi[g]) in tri)) { keys[c] = keys[c] " " gi[g] } tri[c, gi[g]]++ }
  num[c] = n; cr[c] = $2; at[c] = $3 ":" $4; nm[c] = $5
}
END {
  for (i = 1; i <= c; i++) if (num[i] >= 8) {
    m = split(keys[i], ks, " ")
    for (j = i + 1; j <= c; j++) {
      if (num[j] < 8 || num[j] * 3 < num[i] * 2 || num[i] * 3 < num[j] * 2) continue
      q = 0; for (a = 1; a <= m; a++) if ((j, ks[a]) in tri) { x = tri[i, ks[a]]; y = tri[j, ks[a]]; q += (x < y ? x : y) }
      sim = 200 * q / (num[i] + num[j])
      if (nm[i] == nm[j] && cr[i] != cr[j] && sim >= 50) { tw[i] = tw[i] " " at[j] " (" int(sim) "%)"; tw[j] = tw[j] " " at[i] " (" int(sim) "%)" }
      else if (num[i] >= 25 && num[j] >= 25 && sim >= 70) { nt[i] = nt[i] " " nm[j] " at " at[j] " (" int(sim) "%)"; nt[j] = nt[j] " " nm[i] " at " at[i] " (" int(sim) "%)" } } }
  for (i = 1; i <= c; i++) { if (tw[i] != "") print "2c\t" cr[i] "\t" at[i] "\t" nm[i] "\tlike" tw[i]; if (nt[i] != "") print "2d\t" cr[i] "\t" at[i] "\t" nm[i] "\tlike" nt[i] }
}' "$T/fns" | place
# 2e structs whose fields are of the same types in the same order, where each type but bool, Verdict, Listing and Answer counts as
# one (structs of at least 2 fields)
awk -F '\t' '$1 == "struct" && $6 ~ /:/ { b = $6; gsub(/pub(\([a-z]+\))? /, "", b); gsub(/ /, "", b); sub(/,$/, "", b); m = split(b, f, ","); k1 = ""; flag = 0
  for (i = 1; i <= m; i++) { if (f[i] ~ /^ghost/) continue; sub(/^[^:]*:/, "", f[i]); if (f[i] !~ /^(bool|Verdict|Listing|Answer)$/) f[i] = "T"; else flag = 1; k1 = k1 (k1 == "" ? "" : ", ") f[i] }
  if (k1 !~ /,/ || !flag) next; c++; k[c] = k1; n[k1]++; r[c] = $2 "\t" $3 ":" $4 "\t" $5 }
END { for (i = 1; i <= c; i++) if (n[k[i]] > 1) print "2e\t" r[i] "\t(" k[i] "), " n[k[i]] " structs" }' "$T/all" | place

# ---- point 3 ----
# 3a while that count by hand a name of their condition (the body raises or lowers it by one, or gives it such a value); 3b other
# while and loop whose body counts a name by one; 3c while and loop that do not count; 3d for
awk -F '\t' '
{
  n = split($8, l, "\037")
  for (i = 1; i <= n; i++) if (l[i] ~ /(^| )(while|loop|for) .*\{ *$|^ *loop *\{ *$/ && l[i] !~ /^ *impl/) {
    match(l[i], /^ */); d = RLENGTH; counted = ""; step[""] = 0; split("", nx)
    for (j = i + 1; j <= n; j++) { match(l[j], /^ */); if (RLENGTH == d && l[j] ~ /^ *\}/) break
      if (match(l[j], /let [a-z_]+ = [a-z_]+ [+-] 1;/)) { t = substr(l[j], RSTART + 4, RLENGTH - 4); split(t, w, " "); nx[w[1]] = w[3] }
      if (match(l[j], /^ *[a-z_]+ [+-]= 1;/)) { t = l[j]; sub(/^ */, "", t); sub(/ .*/, "", t); counted = counted " " t }
      if (match(l[j], /^ *[a-z_]+ = [a-z_]+ [+-] 1;/)) { t = l[j]; sub(/^ */, "", t); sub(/ .*/, "", t); counted = counted " " t }
      if (match(l[j], /^ *[a-z_]+ = [a-z_]+;/)) { t = l[j]; sub(/^ */, "", t); split(t, w, " "); sub(/;/, "", w[3]); if (nx[w[3]] == w[1]) counted = counted " " w[1] } }
    h = l[i]; sub(/^ */, "", h); sub(/ *\{ *$/, "", h)
    if (h ~ /(^| )(while|loop)/) {
      inhead = 0; m = split(counted, w, " "); for (j = 1; j <= m; j++) if (h ~ ("(^|[^A-Za-z_0-9])" w[j] "([^A-Za-z_0-9]|$)")) inhead = 1
      if (counted != "") print (inhead ? "3a" : "3b") "\t" $2 "\t" $3 ":" $4 "\t" $5 "\t" h ", counts" counted
      else print "3c\t" $2 "\t" $3 ":" $4 "\t" $5 "\t" h }
    else if (h ~ /(^| )for /) print "3d\t" $2 "\t" $3 ":" $4 "\t" $5 "\t" h } }' "$T/fns" | place

# ---- point 4 ----
# 4a loops that compare entry by entry; 4b loops that copy or fill; 4c bodies that are a cast; 4d tables from an enum or a flag to
# numbers; 4e conversions by name; 4f printing and putting text together by hand; 4g two values compared field by field
awk -F '\t' '
{
  n = split($8, l, "\037"); inl = 0; cmp = 0; cp = 0; arms = 0; tab = 0
  for (i = 1; i <= n; i++) {
    match(l[i], /^ */); d = RLENGTH
    if (!inl && l[i] ~ /^ *(while|for|loop)( .*)?\{ *$/) { inl = 1; ld = d; st = 0; c1 = 0; continue }
    if (inl && d == ld && l[i] ~ /^ *\}/) { inl = 0; if (c1 && st <= 4) cp = 1; continue }
    if (inl && l[i] ~ /^ *if .*\{$/) { q = l[i]; sub(/^ *if /, "", q); sub(/ *\{$/, "", q); k = split(q, w, " && "); for (j = 1; j <= k; j++) if (w[j] ~ /[])] (!=|==|<|<=) .*[])]$/) cmp = 1 }
    if (inl && l[i] ~ /;$/) st++
    if (inl && l[i] ~ /\] = .*;$|^ *(put[a-z_]*|add_letter)\(.*\);$/) c1 = 1
    if (l[i] ~ /=> [0-9]+,$/ || l[i] ~ /=> [A-Z_]+,$/) arms++ }
  one = $8; gsub(/\037/, " ", one); gsub(/ +/, " ", one)
  if (cmp) print "4a\t" $2 "\t" $3 ":" $4 "\t" $5 "\tcompares in a loop"
  if (cp) print "4b\t" $2 "\t" $3 ":" $4 "\t" $5 "\tcopies or fills in a loop"
  if (one ~ /^ *\(?[a-z_]+( % [0-9]+\))? as u(8|16|32|64|size) *$/) print "4c\t" $2 "\t" $3 ":" $4 "\t" $5 "\ta cast"
  if (arms >= 2 || arms == 1 && $6 ~ /: (Refusal|Verdict|Listing|Answer)/) print "4d\t" $2 "\t" $3 ":" $4 "\t" $5 "\ttable of " arms " arms"
  else if (one ~ /^ *if .* \{ 1 \} else \{ 0 \} *$/) print "4d\t" $2 "\t" $3 ":" $4 "\t" $5 "\tflag to number"
  if ($5 ~ /^(packed|packed_at|unpacked|record_from|fresh_record|range_of|question_of|event_of|place_of|behind|bit_of|listed_as|listed_said|gathered_said|lent_record|small_entry|entry|alone|with_entry|row_at|copied_row|written_cut|to_tell|call_read|list_by_moving)$/) print "4e\t" $2 "\t" $3 ":" $4 "\t" $5 "\tone form to another"
  f = 0; for (i = 1; i <= n; i++) if (match(l[i], /same[a-z_]*\(([a-z]+|Kind::[A-Za-z]+), .*\)\??;?$/)) { t = l[i]; gsub(/[()?]/, " ", t); gsub(/,/, "", t); k = split(t, w, " "); split("", has); for (j = 1; j <= k; j++) if (w[j] ~ /^[a-z]+(\.said)?\.[a-z0-9]+(\.0)?;?$/) { sub(/;/, "", w[j]); sub(/^[a-z]+\./, "", w[j]); has[w[j]]++; if (has[w[j]] == 2) f++ } }
  if (f >= 2) print "4g\t" $2 "\t" $3 ":" $4 "\t" $5 "\t" f " fields"
  if ($8 ~ /io::(write_all|print_decimal|print_hex|decimal)\(/ || $5 ~ /^(say.*|add_(letter|part|number|line|lines|clock)|digits_of)$/ || $6 ~ /: Piece|-> Piece/ || $8 ~ /copy_out\(/) print "4f\t" $2 "\t" $3 ":" $4 "\t" $5 "\tputs text together" }' "$T/fns" | place

# ---- point 5 ----
# 5a facts of requires that stand in three or more functions: each function is a place; 5b parameters that occur together, next to
# one another, in three or more functions (three names, or two in eight functions, without `book`): a function with its longest run
awk -F '\t' '
function norm(t) { gsub(/\.(now|old|new|entry)/, "", t); gsub(/«|»/, "", t); gsub(/^ +| +$/, "", t); while (t ~ /^\(.*\)$/) { u = substr(t, 2, length(t) - 2); if (balanced(u)) t = u; else break } gsub(/^ +| +$/, "", t)
  if (t ~ /^piece\.length.*piece_room$/) return "piece.length .. ≤ piece_room"
  if (t ~ /^[A-Z][A-Za-z]* |^walk\.Span /) { sub(/ .*/, "", t); return t }
  gsub(/(own|other|last|tablet|position|number|first)\.0/, "_.0", t); gsub(/column [a-z]+/, "column _", t); return t }
function balanced(u, i, d, ch) { d = 0; for (i = 1; i <= length(u); i++) { ch = substr(u, i, 1); if (ch == "(") d++; if (ch == ")") { d--; if (d < 0) return 0 } } return d == 0 }
function cut(s, i, d, ch, cur) { d = 0; cur = ""
  for (i = 1; i <= length(s); i++) { ch = substr(s, i, 1); if (ch == "(") d++; if (ch == ")") d--
    if (d == 0 && substr(s, i, 2) == "×") { add(cur); cur = ""; i++ } else cur = cur ch } add(cur) }
function add(t) { t = norm(t); if (t != "" && !((t, NR) in have)) { have[t, NR] = 1; c++; f[c] = t; r[c] = $2 "\t" $3 ":" $4 "\t" $5; n[t]++ } }
{ s = $7; while (match(s, /requires[a-z_ ]*\{/)) { s = substr(s, RSTART + RLENGTH); e = index(s, " ensures"); q = s; if (e) q = substr(s, 1, e); e2 = index(q, "requires"); if (e2) q = substr(q, 1, e2 - 1); sub(/\} *$/, "", q); cut(q) } }
END { for (i = 1; i <= c; i++) if (n[f[i]] >= 3) print "5a\t" r[i] "\t" f[i] }' "$T/fns" | place
awk -F '\t' '
{ s = $6; sub(/^.*fn +[A-Za-z_0-9]+(<[^(]*>)?\(/, "", s); sub(/\) *(->.*)?$/, "", s); gsub(/&(\x27[a-z]+ )?mut /, "\\&", s); gsub(/&\x27[a-z]+ /, "\\&", s); gsub(/ +/, " ", s)
  m = 0; d = 0; cur = ""; for (i = 1; i <= length(s); i++) { ch = substr(s, i, 1); if (ch ~ /[(<[]/) d++; if (ch ~ /[]>)]/) d--; if (ch == "," && d == 0) { p[++m] = cur; cur = "" } else cur = cur ch } if (cur ~ /:/) p[++m] = cur
  for (i = 1; i <= m; i++) { gsub(/^ +| +$/, "", p[i]); sub(/^mut /, "", p[i]); sub(/:.*/, "", p[i]) }
  split("", here)
  for (a = 1; a <= m; a++) { run = p[a]; for (b = a + 1; b <= m; b++) { run = run "+" p[b]; if (b - a >= 1 && !(run in here)) { here[run] = 1; n[run]++; len[run] = b - a + 1; c++; f[c] = run; r[c] = $2 "\t" $3 ":" $4 "\t" $5 } } } }
END {
  for (x in n) if (n[x] >= 3 && len[x] >= 2) few[x] = n[x]
  for (x in few) for (y in few) if (x != y && few[x] == few[y] && index("+" y "+", "+" x "+")) { part[x] = 1; break }
  for (i = 1; i <= c; i++) if (n[f[i]] >= 3 && !(f[i] in part) && (len[f[i]] >= 3 || n[f[i]] >= 8 && f[i] !~ /^book/)) { print "5g\t-\t-\t-\t" f[i]; if (len[f[i]] > best[r[i]]) { best[r[i]] = len[f[i]]; g[r[i]] = f[i] } }
  for (x in g) print "5b\t" x "\t" g[x] }' "$T/fns" | sort | place
# 5c terms that stand in the contracts of three or more functions
awk -F '\t' '
BEGIN { m = split("store_of «record»|store_of last.«record»|verdict_number result|cuts_between (clock_at clocks.now)|span.low.counts span.high.counts|ForHeld|ForTrace|(held : List ℕ) →|grown piece|grown empty_piece|result.length ≤ piece_room|clock_at clocks.now|known (clock_at clocks.now)|LinesAt out.old|printed result out.new|listed result out.new|tallies order.now", term, "|") }
{ for (i = 1; i <= m; i++) if (index($7, term[i])) { c++; f[c] = term[i]; n[term[i]]++; r[c] = $2 "\t" $3 ":" $4 "\t" $5 } }
END { for (i = 1; i <= c; i++) if (n[f[i]] >= 3) print "5c\t" r[i] "\t" f[i] }' "$T/fns" | place
# 5d contracts that ask the length of the clocks, as such or by a fact that has it inside
awk -F '\t' '{ q = $7; sub(/ensures.*/, "", q); if (match(q, /16256|Comparable|Readable|IntervalReady|CutReady|Known clocks|walk\.Span|Standing|Liftable|Pending|SoundTrace|GatherReady|AppendReady|WriteReady|EventsReady|TurnReady|Answerable|store_refusal|Writable \(store_of|full_sizes/)) print "5d\t" $2 "\t" $3 ":" $4 "\t" $5 "\t" substr(q, RSTART, RLENGTH) }' "$T/fns" | place

# ---- point 6 ----
# 6a structs of a buffer and a length; 6b tables of cells (type aliases of arrays, consts that are indices into them); 6c a slice or
# an array with a length among the parameters; 6d loops that search or count by hand; 6e the three buffers side by side;
# 6f sets as bits
awk -F '\t' '$1 == "struct" && $6 ~ /\[[A-Za-z0-9]+; / && $6 ~ /(length|from|count|len): (u8|u16|u32|u64|usize)/ { print "6a\t" $2 "\t" $3 ":" $4 "\t" $5 "\ta buffer and a length" }
$1 == "type" && $6 ~ /\[[a-z0-9]+; / { b = $6; sub(/^ *= */, "", b); print "6b\t" $2 "\t" $3 ":" $4 "\t" $5 "\ttype " b }' "$T/all" | place
awk -F '\t' '
NR == FNR { if ($1 == "fn") body[$2] = body[$2] " " $8; next }
$1 == "const" && $6 ~ /^: u64 =/ { k = $5; b = body[$2]; if (match(b, "(cell|put|fill|keep_bytes|copy_cells|wrapping_add_u64|add_note|add_one|listed|lay_bytes|wrong_bytes|put_listed|index_of)\\((&mut )?(book, )?([A-Z_]+, )?" k "[^A-Za-z_0-9]") || match(b, "[^A-Za-z_0-9]" k " \\+ ")) print "6b\t" $2 "\t" $3 ":" $4 "\t" k "\tindex" $6 }' "$T/all" "$T/all" | place
awk -F '\t' '
{ s = $6
  if (s ~ /(&(mut )?\[[a-z0-9]+\]|&(mut )?(Text|Bytes|Words|Output|Clocks|Held|Order)|\[u8; 8\])/ && match(s, /[(, ]((n|length|count|events|end|written): (u8|u16|usize)|length: u64)/)) print "6c\t" $2 "\t" $3 ":" $4 "\t" $5 "\twith" substr(s, RSTART, RLENGTH)
  n = split($8, l, "\037"); inl = 0; hit = ""
  for (i = 1; i <= n; i++) { match(l[i], /^ */); d = RLENGTH
    if (!inl && l[i] ~ /^ *(while|loop|for)( .*)?\{ *$/) { inl = 1; ld = d; continue }
    if (inl && d == ld && l[i] ~ /^ *\}/) { inl = 0; continue }
    if (inl && l[i] ~ /^ *return (i|j|p|at|q);/) hit = "searches"
    if (inl && (l[i] ~ /(found|count|line|wrong|touched) \+= |(count|wrong|touched|line|found) = wrapping_add_u64\((count|wrong|touched|line|found), 1\)/) && l[i-1] ~ /^ *if /) hit = "counts hits"
    if (inl && l[i] ~ /line \+= /) hit = "counts hits"
    if (inl && l[i] ~ /^ *break;/ && l[i-1] ~ /^ *if .*[])] (!=|==|<) /) hit = "searches" }
  if ($6 ~ /mask: u/ || $8 ~ /% 2 == 1|BITS\[|power %/) print "6f\t" $2 "\t" $3 ":" $4 "\t" $5 "\ta set as bits"
  if (hit != "") print "6d\t" $2 "\t" $3 ":" $4 "\t" $5 "\t" hit
  if (s ~ /clocks: &/ && s ~ /order: &/) print "6e\t" $2 "\t" $3 ":" $4 "\t" $5 "\t" (s ~ /held: &/ ? "clocks, held, order" : "clocks, order") (s ~ /record: Record/ ? ", record" : "") }' "$T/fns" | place

# ---- point 7 ----
# 7a matches with two or more arms that are calls; 7b returns of a call behind a test of a number of a kind or a flag of a step;
# 7c the same call three or more times in one function, with other constants; 7d closures, impl Fn, dyn and function types
awk -F '\t' '
{ n = split($8, l, "\037"); arms = 0; split("", calls); split("", lit); m = 0
  for (i = 1; i <= n; i++) {
    if (l[i] ~ /=> [a-z_:]+\(.*\),$/) arms++
    if (l[i] ~ /^ *if .*(== [A-Z_]+|opened|\.more|\.call == ).*\{$/ && l[i] !~ /=> /) print "7b\t" $2 "\t" $3 ":" $4 "\t" $5 "\t" substr(l[i], match(l[i], /[^ ]/))
    if (l[i] ~ /let [a-z]+ = [a-z.]+ == [A-Z]+;|while (call|short) < /) print "7b\t" $2 "\t" $3 ":" $4 "\t" $5 "\t" l[i]
    if (match(l[i], /^ *[a-z_:.]+!?\(.*\)\??;?$/)) { t = l[i]; sub(/^ */, "", t); sub(/\(.*/, "", t); calls[t]++ } }
  if (arms >= 2) print "7a\t" $2 "\t" $3 ":" $4 "\t" $5 "\t" arms " arms that call"
  for (t in calls) if (calls[t] >= 3) print "7c\t" $2 "\t" $3 ":" $4 "\t" $5 "\t" t " " calls[t] " times"
  if (($6 $8) ~ /Fn\(|dyn |: fn\(|FnOnce|FnMut|[(,=] *(move )?\|[A-Za-z_0-9, &():]*\| */) print "7d\t" $2 "\t" $3 ":" $4 "\t" $5 "\ta function as a value" }' "$T/fns" | place

# ---- point 8 ----
# 8a files of answers; 8b of invariants; 8c lines that open with let and stand three or more times in one file, each text once;
# 8d lemmas of the other files of proofs/ that speak of no definition of the repository (what a library may have), by their names
find crates -name out -prune -o -path '*/proofs/*' -name Answers.antt -print | sort | while read -r f; do printf '8a\t%s\t%s:1\t-\t%s lines\n' "$(echo "$f" | cut -d/ -f2)" "$f" "$(wc -l < "$f" | tr -d ' ')"; done | place
find crates -name out -prune -o -path '*/proofs/*' -name Invariants.antt -print | sort | while read -r f; do printf '8b\t%s\t%s:1\t-\t%s lines\n' "$(echo "$f" | cut -d/ -f2)" "$f" "$(wc -l < "$f" | tr -d ' ')"; done | place
find crates -name out -prune -o -path '*/proofs/*' -name '*.antt' -print | sort | xargs awk '
FNR == 1 { for (t in n) if (n[t] >= 3) print "8c\t" crate "\t" file ":1\t-\t" n[t] " times " t; split("", n); split(FILENAME, p, "/"); crate = p[2]; file = FILENAME }
/^ *let / { t = $0; gsub(/^ +| +$/, "", t); n[t]++ }
END { for (t in n) if (n[t] >= 3) print "8c\t" crate "\t" file ":1\t-\t" n[t] " times " t }' | place
find crates -name out -prune -o -path '*/proofs/*' -name '*.antt' ! -name Answers.antt ! -name Invariants.antt -print | sort | xargs awk '
function finish(x, i, k, m, w, s, nm, st, t, q, bad, mod, inrec) {
  split("", own); inrec = 0; mod = ""
  for (x = 1; x <= lines; x++) {
    if (l[x] ~ /^use Rattle\./ && l[x] !~ /^use Rattle\.std\./ && match(l[x], /\{.*\}/)) { t = substr(l[x], RSTART + 1, RLENGTH - 2); m = split(t, w, ","); for (i = 1; i <= m; i++) { gsub(/^ +| +$/, "", w[i]); own[w[i]] = 1 } }
    if (l[x] ~ /^ *(abbrev |record |data |pub record |pub data )/) { t = l[x]; sub(/^ *(pub )?(abbrev|record|data) (pub )?/, "", t); sub(/[ :].*/, "", t); own[t] = 1 } }
  for (x = 1; x <= lines; x++) {
    if (l[x] ~ /^(pub )?(record|data) /) { inrec = 1; continue }
    if (inrec && l[x] ~ /^ /) continue
    inrec = 0
    if (l[x] ~ /^ *module _ /) { mod = l[x]; continue }
    if (l[x] !~ /^ *(pub +)?[A-Za-z_][^ ]* : / || l[x] ~ /^ *(use|module|let|abbrev) /) continue
    s = l[x]; sub(/^ *(pub +)?/, "", s); nm = s; sub(/ : .*/, "", nm); st = s; sub(/^[^ ]+ : /, "", st)
    split("", bound); q = st; while (match(q, /[({][^(){}:]* :/)) { t = substr(q, RSTART + 1, RLENGTH - 3); q = substr(q, RSTART + RLENGTH); k = split(t, w, " "); for (i = 1; i <= k; i++) bound[w[i]] = 1 }
    t = st; gsub(/[(){}.,→]/, " ", t); m = split(t, w, " "); bad = 0
    for (i = 1; i <= m; i++) if ((w[i] in own) && !(w[i] in bound) || w[i] ~ /goal|Store|Step|Piece|Record|Verdict|Refusal/) bad = 1
    if (l[x] ~ /^ / && mod != "") { t = mod; gsub(/[(){}.,→]/, " ", t); k = split(t, w, " "); for (i = 1; i <= k; i++) if (w[i] in own) bad = 1 }
    if (!bad && st ~ /≡|≤|</ && st ~ /→|take|drop|length|set|get_or|cond/) print "8d\t" crate "\t" file ":" x "\t" nm "\t" st }
}
FNR == 1 { if (lines) finish(); lines = 0; split(FILENAME, p, "/"); crate = p[2]; file = FILENAME }
{ l[++lines] = $0 }
END { finish() }' | place
# 8e lines that open with let and stand in three or more files of answers of one crate
find crates -name out -prune -o -path '*/proofs/*' -name Answers.antt -print | sort | xargs awk '
FNR == 1 { split(FILENAME, p, "/"); crate = p[2] }
/^ *let / { t = $0; gsub(/^ +| +$/, "", t); if (!((crate, FILENAME, t) in seen)) { seen[crate, FILENAME, t] = 1; n[crate "\t" t]++ } }
END { for (x in n) if (n[x] >= 3) { split(x, w, "\t"); print "8e\t" w[1] "\t-\t-\t" n[x] " files: " w[2] } }' | sort | place

# ---- out ----
if [ "$1" = groups ]; then
  grep -E "^5[acg]" "$T/places" | cut -f1,5 | sort | uniq -c | sort -k2,2 -k1,1nr
elif [ "$1" = list ]; then
  if [ -n "$2" ]; then grep "^$2" "$T/places"; else grep -v "^5g" "$T/places"; fi
else
  grep -v "^5g" "$T/places" | cut -f1,2 | sort | uniq -c | awk '{ print $2, $3, $1 }'
fi
