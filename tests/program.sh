#!/bin/sh
# Runs the built program on texts at the edges of the format, and compares what it writes and its status.
#   tests/program.sh [PROGRAM]     PROGRAM is crates/checker/out/checker if it is not given
# LANDED says how many stages have landed: a text of a later stage is answered by its stage.
set -u
root=$(cd "$(dirname "$0")/.." && pwd)
program=${1:-$root/crates/checker/out/checker}
program=$(cd "$(dirname "$program")" && pwd)/$(basename "$program")
landed=${LANDED:-1}
work=$(mktemp -d)
trap 'rm -rf "$work"' EXIT
cd "$work" || exit 2
passed=0
failed=0

# expect STATUS STDOUT STDERR ARGUMENT..: runs the program; standard input is the file `in` if there is one.
expect() {
    status=$1 out=$2 err=$3
    shift 3
    [ -e in ] || : > in
    "$program" "$@" < in > out 2> err
    got=$?
    rm -f in
    if [ "$got" = "$status" ] && [ "$(cat out)" = "$out" ] && [ "$(cat err)" = "$err" ]; then
        passed=$((passed + 1))
    else
        failed=$((failed + 1))
        echo "check $*: status $got, and should be $status"
        printf '  stdout: %s\n  should: %s\n  stderr: %s\n  should: %s\n' "$(cat out)" "$out" "$(cat err)" "$err"
    fi
}

# What is said of a text of a stage, once that has landed.
answer() {
    if [ "$2" -lt "$landed" ]; then
        echo "$3"
    else
        echo "$1: not yet: stage $2"
    fi
}

# holds FILE STAGE COUNT: the text has COUNT declarations, which all hold.
holds() {
    if [ "$2" -lt "$landed" ]; then code=0; else code=1; fi
    expect $code "$(answer "$1" "$2" "$1: all $3")" "" "$1"
}

# refused FILE STAGE LINE AFTER DECLARATION
refused() {
    expect 1 "$(answer "$1" "$2" "$1:$3: refused after $4: $5")" "" "$1"
}

# no_text FILE LINE WHAT
no_text() {
    expect 1 "$1:$2: no text: $3" "" "$1"
}

# text WHAT LINE TEXT..: the text, given as printf takes it, does not read.
bad=0
text() {
    what=$1 line=$2
    shift 2
    bad=$((bad + 1))
    printf "$@" > "bad$bad.txt"
    no_text "bad$bad.txt" "$line" "$what"
}

# repeat COUNT WORD
repeat() {
    awk -v n="$1" -v w="$2" 'BEGIN { for (i = 0; i < n; i++) printf "%s", w }'
}

# pad FILE SIZE: spaces at the end of the file, up to SIZE bytes.
pad() {
    size=$(wc -c < "$1")
    repeat $(($2 - size)) ' ' >> "$1"
}

id='def id : (A : Type 0) -> A -> A := fun (A : Type 0) => fun (x : A) => x;'
nat='data nat : Type 0 { zero again 0; next again 1; }'

# The samples.
cp "$root"/crates/checker/data/*.txt .
holds id.txt 0 1
holds numbers.txt 1 3
holds equality.txt 2 4
holds script.txt 5 2
no_text no_text.txt 3 ':= was expected'
refused refused.txt 0 4 1 'theorem t'

# No bytes, a byte that is no text.
: > empty.txt
holds empty.txt 0 0
printf '\0' > nul.txt
no_text nul.txt 1 'a declaration was expected'

# The largest text, and one byte more.
echo "$id" > large.txt
pad large.txt 32768
holds large.txt 0 1
cp large.txt larger.txt
pad larger.txt 32769
no_text larger.txt 2 'the text has more than 32768 bytes'
cp large.txt huge.txt
pad huge.txt 100000
no_text huge.txt 2 'the text has more than 32768 bytes'
repeat 32769 '\n' > lines.txt
no_text lines.txt 32769 'the text has more than 32768 bytes'
{ printf 'axiom a : '; repeat 3270 'Type 0 -> '; printf 'Type 0;'; } > chain.txt
holds chain.txt 0 1

# Open brackets.
brackets() {
    printf 'def t : Type 1 := '
    repeat "$1" '('
    printf 'Type 0'
    repeat "$1" ')'
    printf ';\n'
}
brackets 64 > deep.txt
holds deep.txt 0 1
brackets 65 > deeper.txt
no_text deeper.txt 1 'more than 64 brackets are open'
{ printf 'def t : Type 1 := by { exact '; repeat 63 '('; printf 'Type 0'; repeat 63 ')'; printf '; };'; } > braces.txt
holds braces.txt 5 1
{ printf 'def t : Type 1 := by { exact '; repeat 64 '('; printf 'Type 0'; repeat 64 ')'; printf '; };'; } > more_braces.txt
no_text more_braces.txt 1 'more than 64 brackets are open'

# Comments, ends of lines, bytes that are not ASCII.
printf '%s # a comment without an end' "$id" > comment.txt
holds comment.txt 0 1
printf '# only a comment' > only.txt
holds only.txt 0 0
printf '# one\r\ndef id :\r\n  (A : Type 0) -> A -> A :=\r\n\tfun (A : Type 0) => fun (x : A) => x;\r\n' > crlf.txt
holds crlf.txt 0 1
printf '# one\r\n\r\ntheorem t : Type 0 :=\r\n  Type 0;\r\n' > crlf_refused.txt
refused crlf_refused.txt 0 3 0 'theorem t'
printf '%s # caf\303\251 \377\n' "$id" > latin.txt
holds latin.txt 0 1
text 'a name was expected' 1 'def \303\251 : Type 1 := Type 0;'
text 'a declaration was expected' 2 '%s\n\377' "$id"

# Words.
printf 'def t : Type1 := Type0;' > joined.txt
refused joined.txt 0 1 0 'def t'
printf '%s def f : nat -> nat := fun (x : nat) => nat . 0 (fun (z : nat) => nat) x (fun (z : nat) => fun (r : nat) => r) x;' "$nat" > spaced.txt
holds spaced.txt 1 2
printf 'axiom t : x . 1;' > unknown.txt
refused unknown.txt 1 1 0 'axiom t'
text 'a name was expected' 1 'def _x : Type 1 := Type 0;'
printf '%s def g : (A : Type 0) -> A -> A := fun (A : Type 0) => fun (x : A) => id _x;' "$id" > hole.txt
holds hole.txt 3 2
long=$(repeat 32 a)
printf 'def %s : Type 1 := Type 0; def b : Type 1 := %s;' "$long" "$long" > long.txt
holds long.txt 0 2
text 'a name was expected' 1 'def %sa : Type 1 := Type 0;' "$long"
text 'a term was expected' 1 'def b : Type 1 := %sa;' "$long"
printf 'axiom t : Type 999; def u : Type 1 := Type 000;' > digits.txt
holds digits.txt 0 2
text 'a number of at most three digits was expected' 1 'axiom t : Type 1000;'
text 'a number of at most three digits was expected' 1 'axiom t : Type x;'
for word in fun Type def theorem axiom data hide again by intro exact have apply eq same along _ 1x; do
    text 'a name was expected' 1 'axiom %s : Type 0;' "$word"
done

# Names that are declared twice.
text 'a name is declared twice' 1 'data nat : Type 0 { nat again 0; }'
text 'a name is declared twice' 1 '%s axiom zero : Type 0;' "$nat"
text 'a name is declared twice' 1 '%s %s' "$id" "$id"
text 'a name is declared twice' 3 'axiom a : Type 0;\n\naxiom a\n: Type 0;\n'
text 'more than 64 brackets are open' 2 'axiom a :\n%s\n%s\nType 0' "$(repeat 65 '(')" "$(repeat 65 '(')"

# What is missing, with its line.
text 'a term was expected' 4 '# one\n\naxiom t :\n: Type 0;\n'
text 'a term was expected' 1 'axiom t : ;'
text ': was expected' 1 'axiom t Type 0;'
text '; was expected' 1 'axiom t : Type 0'
text '; was expected' 2 'axiom t : Type 0\naxiom u : Type 0;\n'
text ':= was expected' 1 'def t : Type 1;'
text '=> was expected' 1 'def t : Type 1 := fun (x : Type 0) -> x;'
text '-> was expected' 1 'axiom t : (x : Type 0) x;'
text '( and a name and : were expected' 1 'def t : Type 1 := fun x => x;'
text ') was expected' 1 'axiom t : (Type 0;'
text '{ was expected' 1 'data nat : Type 0 zero again 0; }'
text 'Type and a number were expected' 1 'data nat : nat { }'
text 'again was expected' 1 'data nat : Type 0 { zero; }'
text 'a step of a script was expected' 1 'def t : Type 1 := by { Type 0; };'

# The core: what must be refused, each at its line, and what holds before it.
# A bound name caught by another.
cat > alpha.txt <<'END'
axiom nat : Type 0;
axiom zero : nat;
def first : nat -> nat -> nat := fun (x : nat) => fun (y : nat) => x;
def second : nat -> nat -> nat := fun (x : nat) => fun (y : nat) => y;
def as_first : nat -> nat -> nat := fun (y : nat) => fun (x : nat) => y;
theorem renamed : (P : (nat -> nat -> nat) -> Type 0) -> P first -> P as_first := fun (P : (nat -> nat -> nat) -> Type 0) => fun (p : P first) => p;
theorem caught : (P : (nat -> nat -> nat) -> Type 0) -> P first -> P second := fun (P : (nat -> nat -> nat) -> Type 0) => fun (p : P first) => p;
END
refused alpha.txt 0 7 6 'theorem caught'
head -n 6 alpha.txt > alpha_holds.txt
holds alpha_holds.txt 0 6
# A term put under a binder and not lifted.
cat > under.txt <<'END'
axiom nat : Type 0;
def constant : nat -> nat -> nat := fun (x : nat) => fun (y : nat) => x;
theorem lifted : (P : (nat -> nat) -> Type 0) -> (y : nat) -> P (constant y) -> P (fun (x : nat) => y) := fun (P : (nat -> nat) -> Type 0) => fun (y : nat) => fun (p : P (constant y)) => p;
theorem unlifted : (P : (nat -> nat) -> Type 0) -> (y : nat) -> P (constant y) -> P (fun (y : nat) => y) := fun (P : (nat -> nat) -> Type 0) => fun (y : nat) => fun (p : P (constant y)) => p;
END
refused under.txt 0 4 3 'theorem unlifted'
head -n 3 under.txt > under_holds.txt
holds under_holds.txt 0 3
# Definitions unfolded on either side.
cat > unfold.txt <<'END'
axiom nat : Type 0;
axiom zero : nat;
axiom next : nat -> nat;
def one : nat := next zero;
def uno : nat := next zero;
theorem left : (P : nat -> Type 0) -> P one -> P (next zero) := fun (P : nat -> Type 0) => fun (p : P one) => p;
theorem right : (P : nat -> Type 0) -> P (next zero) -> P one := fun (P : nat -> Type 0) => fun (p : P (next zero)) => p;
theorem both : (P : nat -> Type 0) -> P one -> P uno := fun (P : nat -> Type 0) => fun (p : P one) => p;
theorem neither : (P : nat -> Type 0) -> P one -> P zero := fun (P : nat -> Type 0) => fun (p : P one) => p;
END
refused unfold.txt 0 9 8 'theorem neither'
head -n 8 unfold.txt > unfold_holds.txt
holds unfold_holds.txt 0 8
# The inner of two bindings of a name.
cat > inner.txt <<'END'
axiom nat : Type 0;
axiom row : Type 0 -> Type 0;
def names : nat -> row nat -> row nat := fun (x : nat) => fun (x : row nat) => x;
theorem outer : nat -> row nat -> nat := fun (x : nat) => fun (x : row nat) => x;
END
refused inner.txt 0 4 3 'theorem outer'
head -n 3 inner.txt > inner_holds.txt
holds inner_holds.txt 0 3
# A sort of itself.
cat > levels.txt <<'END'
def small : Type 1 := Type 0;
theorem self : Type 1 := Type 1;
END
refused levels.txt 0 2 1 'theorem self'
head -n 1 levels.txt > levels_holds.txt
holds levels_holds.txt 0 1
# A function type in the sort that it goes over.
cat > levels2.txt <<'END'
def all : Type 1 := (A : Type 0) -> A -> A;
theorem itself : Type 0 := (A : Type 0) -> A -> A;
END
refused levels2.txt 0 2 1 'theorem itself'
head -n 1 levels2.txt > levels2_holds.txt
holds levels2_holds.txt 0 1
# A name that is nowhere.
cat > nowhere.txt <<'END'
axiom nat : Type 0;
theorem t : nat -> nat := fun (x : nat) => y;
END
refused nowhere.txt 0 2 1 'theorem t'
head -n 1 nowhere.txt > nowhere_holds.txt
holds nowhere_holds.txt 0 1
# A name that is declared later.
cat > after.txt <<'END'
def t : Type 1 := u;
def u : Type 1 := Type 0;
END
refused after.txt 0 1 0 'def t'
# What is no function, applied.
cat > noargs.txt <<'END'
axiom nat : Type 0;
axiom zero : nat;
theorem t : nat := zero zero;
END
refused noargs.txt 0 3 2 'theorem t'
head -n 2 noargs.txt > noargs_holds.txt
holds noargs_holds.txt 0 2
# A term that would reduce for ever has no type.
cat > loop.txt <<'END'
theorem omega : Type 0 := (fun (x : Type 0) => x x) (fun (x : Type 0) => x x);
END
refused loop.txt 0 1 0 'theorem omega'
# Steps: as many as are needed, and one fewer. Words: too few for what a term comes to.
holds sums.txt 0 10
if [ 0 -lt "$landed" ]; then
    expect 1 'sums.txt:10: spent after 8: theorem two_and_two' '' --steps 22 sums.txt
    expect 1 'sums.txt:11: spent after 9: theorem ten_times_ten' '' --steps 23 sums.txt
    expect 1 'sums.txt:11: spent after 9: theorem ten_times_ten' '' --steps 620 sums.txt
    expect 0 'sums.txt: all 10' '' --steps 621 sums.txt
    expect 1 'powers.txt:9: no room after 7: theorem large' '' --words 90000 powers.txt
fi
# The largest texts that are one chain, to the right and to the left.
{ printf 'axiom a : Type 0; axiom b : '; repeat 8000 'a->'; printf 'a;'; } > right.txt
holds right.txt 0 2
{ printf 'axiom a : Type 0; axiom f : a -> a; axiom x : a; axiom p : a -> Type 0; axiom t : p ('; repeat 60 'f('; printf 'x'; repeat 60 ')'; printf ');'; } > inside.txt
holds inside.txt 0 5
{ printf 'axiom a : Type 0; axiom x : a; axiom f : '; repeat 5000 'a->'; printf 'a; def t : a := f'; repeat 5000 ' x'; printf ';'; } > left.txt
holds left.txt 0 4

# Standard input, options, what cannot be read.
if [ 0 -lt "$landed" ]; then all=0; else all=1; fi
cp id.txt in
expect $all "$(answer - 0 '-: all 1')" ''
cp id.txt in
expect $all "$(answer - 0 '-: all 1')" '' -
expect 0 'check 0.1.0' '' --version
expect 0 "$(cat "$root/crates/checker/stdout")" '' --help
expect 1 '' 'check: missing.txt: No such file or directory (os error 2)' missing.txt
mkdir folder
expect 1 '' 'check: folder: Is a directory (os error 21)' folder
expect 1 "$(answer id.txt 0 'id.txt: all 1')" 'check: 10x: not a number of steps' --steps 10x id.txt
expect 1 "$(answer id.txt 0 'id.txt: all 1')" 'check: -1: not a number of words up to 1037311' --words -1 id.txt
expect 1 "$(answer id.txt 0 'id.txt: all 1')" 'check: 1037312: not a number of words up to 1037311' --words 1037312 id.txt
expect 1 "$(answer id.txt 0 'id.txt: all 1')" 'check: 18446744073709551616: not a number of steps' --steps 18446744073709551616 id.txt
expect 1 "$(answer id.txt 0 'id.txt: all 1')" 'check: --step: unknown option' --step id.txt
expect 1 '' 'check: --words: a number is missing' --words
expect $all "$(answer id.txt 0 'id.txt: all 1')" '' --steps 18446744073709551615 --words 1037311 id.txt
expect 1 'empty.txt: few: 65535 words are too few for this text, at least 65536 are needed' '' --words 65535 empty.txt
expect $all "$(answer empty.txt 0 'empty.txt: all 0')" '' --words 65536 empty.txt
expect 1 'larger.txt: few: 589839 words are too few for this text, at least 589840 are needed' '' --words 589839 larger.txt

# The largest texts that are one chain each way, under the stack that programs have elsewhere. They read, and no declaration of
# theirs holds, since their names are nowhere.
ulimit -s 8192
chain() {
    size=$(wc -c < "$1")
    if [ "$size" -gt 32768 ] || [ "$size" -lt 32000 ]; then echo "$1 has $size bytes"; failed=$((failed + 1)); fi
    refused "$1" "$2" 1 0 "$3"
}
{ printf 'axiom a : '; repeat 6550 'A -> '; printf 'A;'; } > arrows.txt
chain arrows.txt 0 'axiom a'
{ printf 'axiom a : f'; repeat 16370 ' a'; printf ';'; } > uses.txt
chain uses.txt 0 'axiom a'
{ printf 'def a : A := '; repeat 3275 'fun(x:A)=>'; printf 'x;'; } > functions.txt
chain functions.txt 0 'def a'
awk 'BEGIN { for (i = 0; i < 2410; i++) printf "axiom a%d:A;", i }' > declarations.txt
chain declarations.txt 0 'axiom a0'
{ printf 'def a : A := by { '; repeat 4000 'intro x;'; printf 'exact x; };'; } > intros.txt
chain intros.txt 5 'def a'
{ printf 'def a : A := by { '; repeat 1800 'have x:A{exact x;}'; printf 'exact x; };'; } > haves.txt
chain haves.txt 5 'def a'

# Several files, and a list of them.
if [ 0 -lt "$landed" ]; then counts='1 all, 1 refused' later=0; else counts='0 all, 0 refused' later=2; fi
said=$(answer id.txt 0 'id.txt: all 1'; answer refused.txt 0 'refused.txt:4: refused after 1: theorem t'; echo 'no_text.txt:3: no text: := was expected')
expect 1 "$said" "check: missing.txt: No such file or directory (os error 2)
3 texts: $counts, 0 open, 0 spent, 0 no room, $later not yet, 1 no text, 0 few; 1 not read" id.txt missing.txt refused.txt no_text.txt
printf 'id.txt\n\nrefused.txt\nmissing.txt\n-\nno_text.txt' > in
expect 1 "$said" "check: missing.txt: No such file or directory (os error 2)
check: -: standard input has names of files
3 texts: $counts, 0 open, 0 spent, 0 no room, $later not yet, 1 no text, 0 few; 2 not read" --list

echo "$passed passed, $failed failed"
[ "$failed" = 0 ]
