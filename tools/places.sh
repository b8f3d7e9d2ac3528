#!/bin/sh
# Lists the places that the design pass counts, point by point, in the code below crates/*/src. Run it at the top.
# With an argument, only that point: places.sh 3
show() {
  echo "== $1: $2"
  sh -c "$3" | sed 's/  */ /g' | cut -c1-150
  echo "   places: $(sh -c "$3" | wc -l)"
}
point() { [ -z "$ONLY" ] || [ "$ONLY" = "$1" ]; }
ONLY=$1
if point 1; then
  show 1a "enums with the shape of Option, Result or (): two variants with one value at most, or one variant" \
    "awk 'FNR==1{inside=0} /^pub enum|^enum/{name=FILENAME\":\"FNR\": \"\$0; inside=1; n=0; big=0; next} inside&&/^}/{if(n<=2&&!big)print name; inside=0} inside&&/^    [A-Z]/{n++; if(\$0~/\{/||\$0~/,.*,/)big=1}' \$(find crates/*/src -name '*.rt')"
  show 1b "a refusal answered as an Option" "grep -rnE 'Option<[A-Za-z]*(Refusal|Fault)>' crates/*/src"
  show 1c "a refusal handed on by hand" "grep -rnE 'Err\((f|fault|refusal|refused|ended|cause)\) *=> *(return )?Err|return Err\((f|refused|refusal)\)' crates/*/src"
  show 1d "a match that numbers variants" "grep -rlE '::[A-Z][A-Za-z]*(\(_\))? => [0-9]+,\$' crates/*/src"
  show 1e "a flag or a number for a kind, a number for none" "grep -rnE 'exact: bool|kind: u(8|16)|Kind\(u8\)|, [a-z]+ if there is none|rule: 64|window: 64' crates/*/src"
fi
if point 2; then
  show 2a "pairs of places with six or more lines alike (a copy of the code as .rs, read by 'duplicates --most 60')" \
    "d=\$(mktemp -d); for f in \$(find crates/*/src -name '*.rt'); do mkdir -p \$d/\$(dirname \$f); cp \$f \$d/\${f%.rt}.rs; done; cd \$d && duplicates --most 60 | grep '^D'; rm -rf \$d"
  show 2b "functions that stand under one name in two files, but for methods of traits, tests and new" \
    "grep -roE '^ *(pub )?fn [a-z_]+' crates/*/src | grep -vE 'fn (new|count|reach|reads|narrow|post|shorten|check|number|from_row|row|meet|without|sole|size|alike|put|take|clear|next_of|fields|is_same|is_one|fmt|from|clone|default|len|mark|keep|take_back|cut|settle|show|try_cut|test|main)\$' | sed 's/^\([^:]*\):.*fn /\1 /' | sort -u | awk '{n[\$2]++; f[\$2]=f[\$2]\" \"\$1} END{for(k in n)if(n[k]>1)print k\":\"f[k]}' | sort"
fi
if point 3; then
  show 3a "loops over numbers that index a list, or count down" "grep -rnE -A3 '^ *(for [a-z_]+ in .*\.\.|while [a-z])' crates/*/src | grep -E '\[[a-z]+( \+ [0-9a-z]+)?\]|-= 1' "
  show 3b "other loops over a range, and while" "grep -rnE '^ *(for [a-z_]+ in .*\.\.|while )' crates/*/src"
  show 3c "loops over a slice that look for one item" "grep -rnE -A2 '^ *for [a-z_(), ]+ in [a-z&.()]+ \{' crates/*/src | grep -E 'return (true|false)'"
fi
if point 4; then
  show 4 "equality, order, copying, conversion and printing by hand" \
    "grep -rnE \"impl(<.*>)? (Copy|Clone|Default|PartialEq|Eq|Ord|PartialOrd)( for|<)|b'0' \+|self\.[a-z]+ == other\.[a-z]+|fn (layer_name|same_number|by_plan)\b\" crates/*/src; grep -rlE '::[A-Z][A-Za-z]* => [0-9]+,\$' crates/*/src; grep -rnE 'Cause::(Sheet|Plan|Book)\((refusal|[A-Z][A-Za-z]*::[A-Za-z]*)\)' crates/*/src"
fi
if point 5; then
  show 5a "a fact of an argument that a requires states" "grep -rnE 'requires .*(Stands|Apart|Fit |bound_fits|in_reach|Weighs|Small)' crates/*/src"
  show 5b "clauses that spell out the view of a plan" "grep -rn 'state_of B.RuleBook' crates/*/src"
  show 5c "clauses that spell out how a list is kept (slots and a count)" "grep -rnE '(take|slot_rules|listed)[^;{}]*\.(len|items|slots|depth)\b' crates/*/src | grep -E 'ensures|requires'"
  show 5d "functions with five or more parameters" "awk '/fn [a-z_]+/{sig=\$0; while(sig!~/\) *(->|\{|\$)/){if((getline l)<=0)break; sig=sig l} s=sig; n=gsub(/[a-z_]+: /,\"&\",s); if(sig~/self/)n++; if(n>=5)print FILENAME\":\"FNR\": \"substr(sig,1,100)}' \$(find crates/*/src -name '*.rt')"
fi
if point 6; then
  show 6 "arrays with a count beside" "grep -rnE '^ +(pub )?[a-z]+: \[.*; (FULL|MOST|MOST_TERMS|16|64|8192)\],\$|\(\[[A-Z][a-z]+; MOST' crates/*/src | grep -v '^crates/trials' | grep -vE ': \[(0|None|slot|NewWindow)'"
fi
if point 7; then
  show 7 "a flag that says which step runs, and loops that differ in one test" "grep -rnE 'if exact|fn (put_all|put_readers|wake)\b' crates/*/src"
fi
if point 8; then
  for c in crates/*; do echo "$c: $(find $c/proofs $c/specs -path '*Laws.antt' -o -path '*/proofs/*.antt' 2>/dev/null | xargs cat /dev/null | wc -l) lines of proof, $(find $c/proofs -mindepth 2 -name '*.antt' 2>/dev/null | wc -l) files of functions"; done
  echo "   lines: $(find crates/*/proofs crates/*/specs -path '*Laws.antt' -o -path '*/proofs/*.antt' | xargs cat | wc -l), files of functions: $(find crates/*/proofs -mindepth 2 -name '*.antt' | wc -l)"
fi
