#!/bin/sh
# Counts, and with -l lists, the places in src/ that today's forms may replace. Run at the top of the repository.
#   sh tools/places.sh [-l] [POINT..]
list=0
[ "$1" = -l ] && { list=1; shift; }
points=${*:-"1a 1b 1c 2 3 4 5a 5b 6 7 8a 8b"}
src=$(find crates/*/src -name '*.rt' | sort)

# 1a: an enum with a variant that says that there is no value.
p1a() {
    awk '/^(pub )?enum /{name=FILENAME ": " $0; block=""; on=1}
        on{block=block " " $0}
        on&&/^}/{on=0; if (block ~ /[ {](No[A-Z][A-Za-z]*|Spent|Refused|Missing|Nowhere|Other|NotYet|UsedUp|Normal|Different|Unread|Few)[ ,(]/) print name}' $src
}

# 1b: a flag in a struct or beside a value.
p1b() { grep -nE '^ +(pub )?[a-z_]+: bool,$|let mut [a-z_]+ = (true|false);' $src; }

# 1c: a number written for a kind: compared with, matched, passed or stored as a tag.
p1c() {
    grep -nE '^ +[0-9]+ => |(tag|mark|tree\[[a-z]+\]|words\[[a-z]+\]|heap\[[a-z]+\]|stack\[[a-z]+\]|left\[[a-z]+\]|argument|store\[place\]) (==|!=|<) [0-9]+ |(push|push_named|push_two|push_three|push_mark|insert|bound|head|enter|push_frame|push_place)\([^)]*, [0-9]+[,)]|\((11|13|14|15|5|6), |frames\[[^]]*\] = [0-9]+;|stack\[free\] = [0-9]+;|return 0;' $src
}

# 2: functions with the same types of parameters and of the result (three at least are looked at by hand for twins).
p2() {
    awk 'function flush() { if (sig != "") { s = sig; gsub(/[a-z_]+: /, "", s); sub(/fn [a-z_]+/, "fn", s); sub(/^ *pub /, "", s); sub(/^ */, "", s); gsub(/ +/, " ", s); gsub(/, \)/, ")", s); gsub(/\( /, "(", s); print s "\t" where } sig = "" }
        /^ *(pub )?fn /{where=FILENAME ":" FNR; sig=""; on=1}
        on{sig=sig $0; if (/(requires|ensures|\{)/ || /->.*$/ || /\)$/) { on=0; sub(/ *(requires|ensures|\{).*/, "", sig); flush() }}' $src |
        sort | awk -F'\t' '{n[$1]++; w[$1]=w[$1] " " $2} END {for (s in n) if (n[s] > 1) print n[s], s, w[s]}' | sort -rn
}

# 3: a loop that is no `for` over a collection: over a range of numbers, or with a place or a count that is moved by hand.
p3() { grep -nE "for [a-z_]+ in [0-9a-z_]+\\.\\.|^ *while |^ *('[a-z]+: )?loop \\{" $src; }

# 4: equality, order, conversion and printing by hand.
p4() { grep -nE "fn (same|equal|larger|smaller|made_from|as_text|text|of|of_word|rank|kind_of|leave|decode|is_index|same_[a-z]+)\b" $src; }

# 5a: functions of six parameters or more.
p5a() {
    awk '/^ *(pub )?fn /{where=FILENAME ":" FNR; sig=""; on=1}
        on{sig=sig $0; if (/(requires|ensures|\{)/ || /\)$/ || /->/) { on=0; n=gsub(/: /, ": ", sig); if (n >= 6) print where ": " n " parameters" }}' $src
}

# 5b: a requires that stands, word for word, in three functions or more.
p5b() { grep -hoE 'requires( [a-z_]+)? \{.*\}' $src | sed -E 's/requires( [a-z_]+)? /requires /' | sort | uniq -c | awk '$1 >= 3' | sort -rn; }

# 6: words or bytes with a place in them or a length beside them, as parameters or as fields.
p6() {
    for f in $src; do
        tr '\n' ' ' < "$f" | sed -E 's/ +/ /g' | grep -oE "[a-z_]+: (&('[a-z]+ )?(mut )?)?\[[^]]*\], (pub )?[a-z_]+: usize," | sed "s|^|$f: |"
    done
}

# 7: a choice by a number or an enum of which step to run.
p7() { grep -nE 'if tag == |match (aim|role|tree\[|sign_at|turn|token|cut)\b|match [a-z_]+\[' $src; }

proofs=$(find crates/*/proofs -name '*.antt' | sort)

# 8a: answers and invariants, each of which the check could not do without when it was written.
p8a() { grep -nE '^pub [^ ]+ : goal\.|^abbrev pub [^ ]+ : goal\.' $proofs; }

# 8b: a long line that stands, word for word, three times or more in the proof files of one crate.
p8b() {
    for c in crates/*; do
        find "$c/proofs" -name '*.antt' | xargs cat | sed -E 's/^ +//; s/ +$//' | grep -vE '^(use|--|pub |abbrev pub |mod )' | awk 'length($0) > 60' | sort | uniq -c |
            awk -v c="$c" '$1 >= 3 {print c ":", $0}'
    done
}

for p in $points; do
    if [ $list = 1 ]; then echo "== $p"; "p$p"; else echo "$p $("p$p" | wc -l)"; fi
done
