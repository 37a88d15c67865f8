#!/usr/bin/env bash
# Cases for ./plans on the built programs, as someone at the mill would call it: bash tests/plans.sh
# Each says what standard output, standard error and the exit status must be. The last line counts them.
# shellcheck disable=SC2016 # the backticks are those of the messages
set -u
cd "$(dirname "$0")/.." || exit 2
home=$PWD plans=$PWD/plans passed=0 failed=0
work=$(mktemp -d) || exit 2
trap 'rm -rf "$work"' EXIT
cd "$work" || exit 2
"$plans" --check "$home/rules/a.muli" > /dev/null || exit 2 # the programs are built now, if they were not

ok() { # NAME COMMAND..: the command must succeed
    local name=$1
    shift
    if "$@"; then passed=$((passed + 1)); return; fi
    failed=$((failed + 1))
    printf 'FAILED: %s\n' "$name"
    printf '  %s\n' "status $status" "stdout: $(head -n 5 out)" "stderr: $(head -n 8 err)"
}
run() { # ARGUMENTS..: calls plans, and leaves out, err and status
    timeout 60 "$plans" "$@" > out 2> err
    status=$?
}
ended() { [ "$status" -eq "$1" ]; }
says() { grep -qF -e "$1" "$2"; }
is() { [ "$(cat "$2")" = "$1" ]; }
silent() { [ ! -s "$1" ]; }
gone() { ! kill -0 -- "-$1" 2> /dev/null; } # PROCESS GROUP
try() { # STATUS STDOUT-HAS STDERR-HAS ARGUMENTS..: '' for nothing at all
    local status_wanted=$1 out=$2 err=$3 name
    shift 3
    run "$@"
    name="plans $*"
    ok "$name: status $status_wanted" ended "$status_wanted"
    if [ -n "$out" ]; then ok "$name: prints $out" says "$out" out; else ok "$name: prints nothing" silent out; fi
    if [ -n "$err" ]; then ok "$name: says $err" says "$err" err; else ok "$name: says nothing" silent err; fi
}

# Listing, and every ending
sample=$home/rules/sample.muli list=$home/rules/sample.txt
try 0 'whole 4 rows 31 moves' '' "$sample" 0 3 100
ok 'the list is what the program prints' cmp -s out "$list"
try 3 'cut 13 rows' 'Give more steps' "$home/rules/turns.muli" 0 8 200
ok 'one line says so' test "$(wc -l < err)" -eq 1
ok 'a cut list is printed as it is' cmp -s out "$home/rules/turns-cut.txt"
printf 'int main() { int a free; return a; }' > all.muli
try 3 'full 1000 rows' 'smaller window' all.muli 0 1000 100
try 0 'whole 1000 rows' '' all.muli 0 999 100
printf 'int main() { int a free; int b free; if (a * b == 16769024) return a; else fail; }' > slow.muli
try 3 'spent 0 rows 1000000 moves' 'test earlier' slow.muli 0 4095 100
printf 'int main() { fail; }' > none.muli
try 0 'whole 0 rows' '' none.muli 0 3 100

# Arguments
try 2 '' 'RULE is missing'
try 2 '' 'usage: plans RULE LOW HIGH STEPS'
try 2 '' 'LOW is missing' "$sample"
try 2 '' 'STEPS is missing' "$sample" 0 3
try 2 '' 'one argument too many: 7' "$sample" 0 3 100 7
try 2 '' 'HIGH is not a whole number: 3.5' "$sample" 0 3.5 100
try 2 '' 'STEPS is not a whole number: 1,000; write 1000' "$sample" 0 3 1,000
try 2 '' 'HIGH is not a whole number: +3; write 3' "$sample" 0 +3 100
try 2 '' 'LOW is not a whole number: ' "$sample" '' 3 100
try 2 '' 'LOW is not a whole number: 0 3' "$sample" '0 3' 3 100
try 2 '' 'there is no option --bogus' --bogus
try 2 '' '--against needs a pinned list' --against
try 2 '' 'one argument too many: 0' --check "$sample" 0
try 2 '' "can't read missing.muli: No such file" missing.muli 0 3 100
try 2 '' "can't read .: Is a directory" . 0 3 100
try 0 'Exit status: 0' '' --help
for word in --sheet --check --house --in-place --against --version whole cut full spent; do ok "help has $word" says "$word" out; done
try 0 'toolchain ' '' --version
ok 'a version has two lines' test "$(wc -l < out)" -eq 2
try 0 'whole 4 rows' '' -- "$sample" 0 3 100
try 0 'whole 1 rows' '' all.muli -2147483648 -2147483648 0000000100
for case in '12|LOW is above HIGH: LOW is 5, HIGH is 3|5 3 100' '13|LOW 0 to HIGH 4096 are 4097|0 4096 100' \
    '14|STEPS is 0|0 3 0' '14|STEPS is 1001|0 3 1001' '16|STEPS is below 0, -1|0 3 -1' '16|HIGH is above 2147483647|0 2147483648 100' \
    '16|LOW is below -2147483648|-2147483649 3 100' '16|LOW has over ten digits|00000000001 3 100'; do
    IFS='|' read -r number words job <<< "$case"
    # shellcheck disable=SC2086
    try 1 "refused $number at 0" "$words" "$sample" $job
done

# Files, pipes and links
try 0 'whole 4 rows' '' - 0 3 100 < "$sample"
try 0 'whole 4 rows' '' /dev/stdin 0 3 100 < "$sample"
try 0 'whole 4 rows' '' <(cat "$sample") 0 3 100
try 1 'refused 8 at 0' 'standard input:1:1:' - 0 3 100 < /dev/null
try 1 'refused 1 at 2048' 'standard input:1:2049:' - 0 3 100 < /dev/zero
ok 'a text without end' says 'it has 1000000 or more' err
try 2 '' "can't read standard input" - 0 3 100 <&-
ln -s "$plans" link
ln -s link 'link to a link'
plans="$work/link to a link" try 0 'whole 4 rows' '' "$sample" 0 3 100
cp "$sample" 'a rule.muli'
try 0 'whole 4 rows' '' 'a rule.muli' 0 3 100
for arguments in "$sample 0 3 100" "--sheet $sample 0 3 100" "--check $sample" "--house $sample" "--against $list $sample 0 3 100" "--against $list $sample 0 3 10" --help --version; do
    # shellcheck disable=SC2086
    timeout 60 "$plans" $arguments > /dev/full 2> err
    status=$?
    ok "$arguments, to a full disk: status 2" ended 2
    ok "$arguments: a full disk is named" says "can't write" err
done
timeout 60 "$plans" "$sample" 0 3 100 >&- 2> err
status=$?
ok 'no standard output: status 2' ended 2

# Refusals: the number and the place by both programs, the words of the table, the line and the caret
table() { awk -F ' *[|] *' -v n="$1" -v column="$2" '$2 == n { print $column }' "$home/help/refusals.txt"; }
refused() { # NUMBER LINE:COLUMN WORDS TEXT: the text is written by printf
    # shellcheck disable=SC2059
    printf "$4" > rule.muli
    local answer caret
    run --check rule.muli
    ok "$4: --check gives status 1" ended 1
    ok "$4: number $1" says "refused $1 at " out
    ok "$4: at $2" says "rule.muli:$2: $(table "$1" 3)" err
    ok "$4: says $3" says "$3" err
    ok "$4: what to do" says "$(table "$1" 5)" err
    caret=$(grep -n '^[	 ]*^$' err | head -n 1 | cut -d: -f1)
    if [ -n "$caret" ]; then ok "$4: the caret's column" test "$(sed -n "${caret}p" err | wc -m)" -eq $((${2#*:} + 1)); fi
    answer=$(cat out err)
    run rule.muli 0 3 100
    ok "$4: listing gives status 1" ended 1
    ok "$4: listing says the same" test "$answer" = "$(cat out err)"
}
{ cat "$home/rules/a.muli"; head -c 2000 /dev/zero | tr '\0' ' '; } > long.muli
try 1 'refused 1 at 2048' "it has $(wc -c < long.muli)" --check long.muli
refused 2 1:1 'byte order mark' '\357\273\277int main() { return 1; }'
refused 2 1:1 'UTF-16' '\377\376i\0n\0t\0'
refused 2 1:2 'a byte 0' 'i\0n\0t\0'
refused 2 2:10 'a quotation mark `“`' 'int main() {\n  return “1”; }'
refused 2 2:9 'Write `<=`' 'int main() {\n  if (1 ≤ 2) return 1; else fail;\n}\n'
refused 2 2:3 'no comments' 'int main() {\n  // first\n  return 1; }'
refused 2 2:3 'no comments' 'int main() {\n  /* first */\n  return 1; }'
refused 2 2:12 'no division' 'int main() {\n  return 4 / 2; }'
refused 2 1:18 'There is no `!`' 'int main() { if (!1) fail; else fail; }'
refused 2 1:21 'the byte 255' 'int main() { return \377; }'
refused 2 1:20 '`ö`' 'int main() { int größe; fail; }'
refused 2 1:23 'between two digits' 'int main() { return 12_; }'
refused 2 1:18 'begins with a letter' 'int main() { int _a; fail; }'
refused 2 1:26 'stand two points' 'int main() { int x free 5.6; fail; }'
refused 4 1:26 'Between the ends of a pair stands' 'int main() { int x free 5; fail; }'
refused 4 1:25 '`..` stands only between the two ends' 'int main() { int x free .. 5; fail; }'
refused 3 1:18 'this name has 17' 'int main() { int a2345678901234567; fail; }'
refused 3 1:21 '`2147483648`' 'int main() { return 2147483648; }'
refused 3 1:21 '`2_147_483_648`' 'int main() { return 2_147_483_648; }'
refused 4 1:24 'after `1_2` in line 1' 'int main() { return 1_2a; }'
refused 4 2:9 'write `int x; x = ..;`' 'int main() {\n  int x = 3;\n  return x;\n}\n'
refused 4 2:9 'where `free` or `;` could stand' 'int main() {\n  int x = 3;\n  return x;\n}\n'
refused 4 2:8 'by itself' 'int main() {\n  int a, b;\n  fail; }\n'
refused 4 3:3 'An `else` is missing' 'int main() {\n  if (1 < 2) return 1;\n  fail;\n}\n'
refused 4 3:5 'no `++`' 'int main() {\n  int x;\n  x++;\n  return x;\n}\n'
refused 4 3:6 'no `--`' 'int main() {\n  int x;\n  x--;\n  return x;\n}\n'
refused 4 3:6 'no `+=`' 'int main() {\n  int x;\n  x += 1;\n  return x;\n}\n'
refused 4 2:8 'no `for`' 'int main() {\n  for (int i = 0; i < 3; i++) ;\n  fail; }\n'
refused 4 3:10 'no `for`' 'int main() {\n  int i;\n  for (i = 0; i < 3; i++) ;\n  fail; }\n'
refused 4 1:21 'No brackets stand round conditions' 'int main() { if ((1 < 2) && (2 < 3)) fail; else fail; }'
refused 4 1:20 'stands only in the brackets' 'int main() { x = 1 < 2; fail; }'
refused 4 1:20 'write `==`' 'int main() { if (x = 2) fail; else fail; }'
refused 4 1:20 'Write `>=`' 'int main() { if (x => 2) fail; else fail; }'
refused 4 1:21 'Write `!=`' 'int main() { if (x <> 2) fail; else fail; }'
refused 4 1:19 'as `x != 0`' 'int main() { if (x) fail; else fail; }'
refused 4 3:3 'after `free` in line 2' 'int main() {\n  int x free\n  return x;\n}\n'
refused 4 1:22 'write `0 - x`' 'int main() { return -x; }'
refused 4 1:1 'the only type is `int`' 'void main() { fail; }'
refused 4 3:1 'A `}` is missing' 'int main() {\n  fail;\n'
refused 4 1:22 'too many' 'int main() { fail; } }'
refused 4 1:10 'write `()`' 'int main(void) { fail; }'
refused 5 1:45 'Take a part out' 'int main() { return (((((((((((((((((((((((((1))))))))))))))))))))))))); }'
refused 6 3:7 '`x` is declared already, in line 2' 'int main() {\n  int x;\n  int x;\n  fail; }\n'
refused 6 2:5 '`f` is declared already, in line 1' 'int f() { fail; }\nint f() { fail; }\nint main() { fail; }\n'
refused 6 2:10 '`x` is not declared' 'int main() {\n  return x;\n}\n'
refused 6 3:10 'in a block that has ended' 'int main() {\n  { int x; x = 1; }\n  return x;\n}\n'
refused 6 2:3 'declared in line 3, later' 'int main() {\n  x = 1;\n  int x;\n  fail; }\n'
refused 6 2:10 'there is no function `f`' 'int main() {\n  return f();\n}\n'
refused 6 2:3 'There is no `break`' 'int main() {\n  break;\n  fail; }\n'
refused 7 2:21 'has 2 parameters (line 1), and 3 arguments are given' 'int f(int a, int b) { return a + b; }\nint main() { return f(f(1, 2), 3, 4); }\n'
refused 8 1:1 'the text is empty' ''
refused 8 2:1 'the text is empty' '  \n'
refused 8 2:1 'no `main`' 'int f() { fail; }\n'
refused 8 1:5 '`main` has parameters' 'int main(int a) { fail; }'
refused 9 3:1 'that of `main`' 'int main() {\n  int x;\n}\n'
refused 17 3:10 '`x` is declared in line 2 and given no value before this' 'int main() {\n  int x;\n  return x;\n}\n'
refused 17 3:7 '`x` is declared in line 2 and given no value before this' 'int main() {\n  int x;\n  x = x + 1;\n  return x;\n}\n'
refused 17 5:10 '`x` is declared in line 3 and not given a value on every way' 'int main() {\n  int y free;\n  int x;\n  if (y < 1) x = 1; else ;\n  return x;\n}\n'
refused 17 4:10 'It is given a value in line 3, but a run may come here another way' 'int main() {\n  int x;\n  while (1 < 2) x = 1;\n  return x;\n}\n'
refused 17 4:10 '`x` is declared in line 3 and given no value before this' 'int main() {\n  { int x; x = 1; }\n  int x;\n  return x;\n}\n'
refused 10 1:39 'the 5th parameter' 'int f(int a, int b, int c, int d, int e) { fail; }\nint main() { fail; }\n'
refused 18 2:14 '`6 .. -5`' 'int main() {\n  int x free 6..-5;\n  return x;\n}\n'
refused 19 1:25 '`-1 .. 4_095` are 4097' 'int main() { int x free -1 .. 4_095; return x; }\n'
refused 10 18:6 'the 17th declaration in `main`' "int main() {\n$(for i in {1..17}; do printf 'int  x%d;\\n' "$i"; done)fail; }\n"
refused 10 17:5 'the 17th function' "int main() { fail; }\n$(for i in {1..16}; do printf 'int f%d() { fail; }\\n' "$i"; done)"
refused 4 3:10 'a name; the word is `return`' 'int main() {\r\n  int x free;\r\n  Return x;\r\n}\r\n'

# Stored texts: where one is refused with 4, the help has read as far as the place
awk -v RS='\001' '{ printf "%s", $0 > ("stored." NR) }' "$home/crates/check_cases/stdin"
k=0
while read -r answer; do
    k=$((k + 1))
    case $answer in 'refused 4 '*) try 1 "$answer" 'could stand' --check "stored.$k" ;; esac
done < "$home/crates/check_cases/stdout"

# Tabs are kept before the caret, a line that is too long is cut, and what a terminal would take for an order is not passed on
printf 'int main() {\n\tint\tx = 3;\n}\n' > rule.muli
run --check rule.muli
ok 'tabs' test "$(sed -n '2,3p' err)" = "$(printf '\tint\tx = 3;\n\t   \t  ^')"
printf 'int main() { %s int x = 3; }\n' "$(head -c 300 /dev/zero | tr '\0' ';')" > rule.muli
run --check rule.muli
ok 'a long line' test "$(sed -n 2p err | wc -c)" -lt 120
ok 'its caret' test "$(sed -n 2p err | cut -c "$(($(sed -n 3p err | wc -c) - 1))")" = '='
printf 'int main() { \033[2J }' > rule.muli
run --check rule.muli
ok 'no control bytes' test -z "$(tr -d '\n\t -~' < err)"

# --check
try 0 'accepted' '' --check "$sample"
printf 'int lone() { return 1; }\nint main() { return twice(2); }\nint twice(int a) { return 2 * a; }\nint f() { return g(); }\nint g() { return f(); }\n' > rule.muli
try 0 'accepted 4 96 120' 'rule.muli:1:5: nothing that `main` calls leads to `lone`' --check rule.muli
ok 'each function of its own line' test "$(cut -d: -f1-3 err | tr '\n' ' ')" = 'rule.muli:1:5 rule.muli:4:5 rule.muli:5:5 '

# --sheet: pages, with the statuses of a list
try 0 'plan list      1' '' --sheet "$sample" 0 3 100
ok 'one page' test "$(wc -l < out)" -eq 60
ok 'lines of 80 characters' test -z "$(grep -Evn '^.{80}$' out)"
ok 'the ending on line 60' test "$(tail -n 1 out | sed 's/ *$//')" = whole
ok 'the rows of the list' test "$(sed -n '2,59p' out | sed 's/^ *//; s/ *$//; /^$/d; s/  */ /g')" = "$(head -n 4 "$list" | sed 's/ : / /')"
printf 'int main() { int a free; return a; }' > rule.muli
try 0 'plan list      2' '' --sheet rule.muli 1 59 100
ok 'two pages' test "$(wc -l < out)" -eq 120
ok 'blanks on line 60 of the first' test -z "$(sed -n 60p out | tr -d ' ')"
ok 'row 59 on the second' test "$(sed -n 62p out | xargs)" = '59 59'
try 3 'full ' "this sheet is not whole, so don't pin it up. There are more than 1,000 plans" --sheet rule.muli 0 1000 100
ok 'eighteen pages' test "$(wc -l < out)" -eq 1080
try 3 'cut ' 'Give more steps' --sheet "$sample" 0 3 10
try 0 'plan list      1' '' --sheet none.muli 0 3 100
ok 'no rows: one page' test "$(wc -l < out)" -eq 60
try 1 'refused 12 at 0' 'LOW is above HIGH' --sheet "$sample" 3 0 100
ok 'a refusal is one line' test "$(wc -l < out)" -eq 1
try 1 'refused 2 at 13' ':1:14: ' --sheet <(printf 'int main() { /') 0 3 10
try 2 '' 'LOW is missing' --sheet "$sample"

# --house: to standard output, or into the file
try 0 'int main()' '' --house "$sample"
ok 'a rule in house style' cmp -s out <("$home/crates/house/out/house" < "$sample")
printf 'int main(){int y free-1 ..007;if((y)<2)return(y+1)*2;else fail;}' > rule.muli
cp rule.muli before.muli
printf 'int main()\n{\n  int y free -1 .. 7;\n  if (y < 2)\n    return (y + 1) * 2;\n  else\n    fail;\n}\n' > styled.muli
try 0 '  int y free -1 .. 7;' '' --house rule.muli
ok 'the whole of it' cmp -s out styled.muli
ok 'the file is as it was' cmp -s rule.muli before.muli
try 0 '    return (y + 1) * 2;' '' --house - < rule.muli
chmod 640 rule.muli
ln -sf rule.muli linked.muli
try 0 '' '' --house --in-place linked.muli
ok 'the file has it' cmp -s rule.muli styled.muli
ok 'its rights stay' test "$(stat -c %a rule.muli)" = 640
ok 'a link stays one' test -L linked.muli
ok 'no other file is left' test -z "$(find . -maxdepth 1 -name '.plans.*')"
number=$(stat -c %i rule.muli)
try 0 '' '' --in-place --house rule.muli
ok 'one in house style is not written again' test "$(stat -c %i rule.muli)" = "$number"
printf 'int main() { return 1 }' > bad.muli
cp bad.muli before.muli
try 1 'refused 4 at 22' 'bad.muli:1:23: ' --house bad.muli
try 1 'refused 4 at 22' 'bad.muli:1:23: ' --house --in-place bad.muli
ok 'a refused one is as it was' cmp -s bad.muli before.muli
{ printf 'int main(){'; for ((k = 0; k < 500; k++)); do printf '1;'; done; printf 'fail;}'; } > many.muli
cp many.muli before.muli
try 0 '  fail;' '' --house many.muli
ok 'past 2,048 bytes it is written whole' test "$(wc -c < out)" -eq $((13 + 500 * 5 + 8 + 2))
try 3 '' 'the house style of many.muli has 2523 bytes' --house --in-place many.muli
ok 'a long one is as it was' cmp -s many.muli before.muli
try 2 '' '--in-place stands with --house' --in-place "$sample" 0 3 100
try 2 '' 'RULE is standard input' --house --in-place - < rule.muli
try 2 '' 'needs a file' --house --in-place .
try 2 '' "can't read missing" --house --in-place missing
try 2 '' 'RULE is missing' --house
if [ "$(id -u)" -ne 0 ]; then
    mkdir shut && cp before.muli shut/rule.muli && chmod 555 shut
    try 2 '' "can't write beside" --house --in-place shut/rule.muli
    chmod 755 shut
fi
printf 'int main(){return(1);}' > loose.muli
cp loose.muli name && cp loose.muli $'name\n'
try 0 '' '' --house --in-place $'name\n'
ok 'a line end at the end of a name counts' cmp -s name loose.muli
ok 'the file of that name has it' says '  return 1;' $'name\n'
# stopped half way, or by something that fails
mkdir half
for signal in TERM KILL; do
    printf '#!/bin/sh\nkill -%s "$PPID"\nsleep 1\n' "$signal" > half/sync
    chmod +x half/sync
    cp loose.muli rule.muli
    PATH=$work/half:$PATH run --house --in-place rule.muli
    ok "$signal half way: the file is as it was" cmp -s rule.muli loose.muli
    ok "$signal half way: it did not end by itself" test "$status" -gt 128
done
rm -f .plans.*
printf '#!/bin/sh\nexit 1\n' > half/sync
PATH=$work/half:$PATH try 2 '' 'it is as it was' --house --in-place rule.muli
printf '#!/bin/sh\necho " " >> rule.muli\nexec /bin/cp "$@"\n' > half/cp
chmod +x half/cp
PATH=$work/half:$PATH try 2 '' 'has changed since it was read' --house --in-place rule.muli
ok 'a file that has changed is left so' cmp -s rule.muli <(cat loose.muli; echo ' ')
ok 'no other file is left here either' test -z "$(find . -maxdepth 1 -name '.plans.*')"

# --against
try 0 'is right: it has all 4 plans' '' --against "$list" "$sample" 0 3 100
head -n 4 "$list" | sed 's/$/\r/' > pinned
try 0 'is right' '' --against pinned "$sample" 0 3 100
try 4 'line 5 is no plan: whole' '' --against <(printf 'whole 4 rows 31 moves\n' | cat "$list" -) "$sample" 0 3 100
try 0 'in another order' '' --against <(head -n 4 "$list" | sort -r) "$sample" 0 3 100
try 0 'is right' '' --against - "$sample" 0 3 100 < "$list"
try 2 '' 'both standard input' --against - - 0 3 100
try 2 '' "can't read missing" --against missing "$sample" 0 3 100
printf '5 : 1 1\n8 : 1 2\n\nTotal\n9 : 1 3\n9 : 1 3\nspent 6 rows 9 moves\n' > pinned
try 4 'missing: 7 : 1 2' '' --against pinned "$sample" 0 3 100
for words in 'missing: 10 : 2 2' 'not allowed: 8 : 1 2 (line 2)' 'line 3 is no plan' 'line 4 is no plan: Total' 'twice: 9 : 1 3 (lines 5 and 6)' 'itself ends `spent'; do
    ok "pinned: $words" says "$words" out
done
try 4 'missing: 5 : 1 1' '' --against /dev/null "$sample" 0 3 100
try 0 'has no plans' '' --against /dev/null none.muli 0 3 100
try 3 'Nothing can be said' 'Give more steps' --against "$list" "$sample" 0 3 10
try 1 'refused 2 at 13' ':1:14: ' --against "$list" <(printf 'int main() { /') 0 3 10
try 1 'refused 12 at 0' 'LOW is above HIGH' --against "$list" "$sample" 3 0 10

# README shows what the command says, and the words of its tables are those that the command reads
printf 'int main() {\n  int x = 3;\n  return x;\n}\n' > rule.muli
run --check rule.muli
ok 'the refusal in README' cmp -s err <(sed -n '/^    rule\.muli:2:9:/,/^$/s/^    //p' "$home/README.md")
status=0
ok 'refusals in README' cmp -s <(sed -n '/^## If it is refused/,/^## What/p' "$home/README.md" | grep '^| [0-9]') "$home/help/refusals.txt"
ok 'endings in README' cmp -s <(grep -E '^\| .(whole|cut|full|spent). \|' "$home/README.md") "$home/help/endings.txt"
ok 'each crate has its cost' test "$(comm -23 <(sed 's/#.*//; s/[ :].*//; /^ *$/d' "$home/crates.txt" | sort) <(cut -d' ' -f1 "$home/help/costs.txt" | sort) | xargs)" = 'check_cases exports program_cases'

# The build, with a stand-in for rt: what is shown, what a failure says, and that nothing half built is trusted
mkdir -p bin repository/crates/{syntax,lister,rule_check,sheet,house}
cat > bin/rt << 'END'
#!/bin/sh
[ "$1" != version ] || { echo 'a kit of the tests'; exit; }
program=${PWD##*/} target=../../target
cut -d ' ' -f 5 "/proc/$$/stat" > $target/rt.group # plans calls rt in a process group of its own
mkdir -p out
if [ "$program" = lister ]; then
    echo > out/lister
    chmod +x out/lister
    for crate in syntax lexer grammar; do
        echo "rt: chose --jobs 2 for $crate"
        [ "${SLOW:-}" != "$crate" ] || WAIT=60
        (sleep "${WAIT:-0}" && echo "$crate" >> $target/ended) &
        wait
        [ "${BAD:-}" != "$crate" ] || { echo "rt: the library $crate did not build, so nothing above it was checked"; exit 1; }
        echo "logic=proved functions=3"
    done
fi
cp "$PROGRAMS/$program/out/$program" out/
END
chmod +x bin/rt
cp -r "$home/plans" "$home/help" repository/
printf 'syntax: # below all\nlexer: syntax\ngrammar: syntax\nspare: syntax\nlister: lexer grammar io\nrule_check: lexer\nsheet: lexer\nhouse: lexer\n' > repository/crates.txt
plans=$work/repository/plans
mkdir tools
for tool in bash env timeout dirname readlink head mktemp rm find grep; do ln -s "$(command -v "$tool")" tools/; done
PATH=$work/tools try 2 '' 'rt (the Rattle toolchain) is not on the path' "$sample" 0 3 100
export PATH="$work/bin:$PATH" PROGRAMS="$home/crates"
BAD=grammar try 2 '' 'rt: the library grammar did not build' "$sample" 0 3 100
ok 'a failed build leaves no mark' test ! -e repository/target/plans.mark
try 0 'whole 4 rows' '[2 of 7] lexer, about ' "$sample" 0 3 100
ok 'a line for each crate' test "$(grep -c '^\[[123] of 7\] ' err)" -eq 3
try 0 'whole 4 rows' '' "$sample" 0 3 100
try 0 'toolchain a kit of the tests' '' --version
touch -d '+1 minute' repository/crates/syntax
if command -v script > /dev/null; then
    script -qec "'$plans' '$sample' 0 3 100" /dev/null < /dev/null > out 2> err
    status=$?
    ok 'a terminal: one line, rewritten' says "$(printf '\r\033[K[1 of 7] syntax, about')" out
    ok 'a terminal: no other lines' test "$(grep -c ' of 7' out)" -eq 1
    rm repository/target/plans.mark
fi
touch repository/crates/syntax
rm -f repository/target/plans.mark repository/target/ended
for k in 1 2; do WAIT=1 "$plans" "$sample" 0 3 100 > "out.$k" 2> "err.$k" & done
wait
cat err.1 err.2 > err
status=0
ok 'two first calls: both list' test "$(cat out.1 out.2)" = "$(cat "$list" "$list")"
ok 'two first calls: one waits' says 'waiting for it' err
ok 'two first calls: one builds' test "$(wc -l < repository/target/ended)" -eq 3
rm -f repository/target/plans.mark
for signal in INT TERM; do
    rm -f repository/target/ended
    set -m
    SLOW=lexer env --default-signal=INT "$plans" "$sample" 0 3 100 > out 2> err & # where these cases run in the background, INT is ignored
    job=$!
    set +m
    for ((i = 0; i < 400; i++)); do # until the first crate is proved
        [ ! -s repository/target/ended ] || break
        sleep 0.1
    done
    kill -"$signal" "$job"
    wait "$job"
    status=$?
    ok "$signal: status 130" ended 130
    ok "$signal: it says so" says 'stopped' err
    ok "$signal: no mark" test ! -e repository/target/plans.mark
    ok "$signal: after the first crate" test "$(cat repository/target/ended)" = syntax
    ok "$signal: rt has stopped too, and all that it has started" gone "$(cat repository/target/rt.group)"
done
try 0 'whole 4 rows' '[3 of 7] grammar' "$sample" 0 3 100

# A program that could not write all of its output: its status is 0, but it says so
for program in house lister; do
    printf '#!/bin/sh\nprintf "int main()\\n{\\nwhole 0 rows 2 moves\\n"\necho "%s: cannot write the output" >&2\n' "$program" > "repository/crates/$program/out/$program"
done
cp loose.muli rule.muli
try 2 '' 'house: cannot write the output' --house --in-place rule.muli
ok 'a rule is not replaced by a part of it' cmp -s rule.muli loose.muli
try 2 '' 'house: cannot write the output' --house rule.muli
try 2 '' 'lister: cannot write the output' rule.muli 0 3 100

printf '%d cases of ./plans answered, %d failed\n' "$passed" "$failed"
[ "$failed" -eq 0 ]
