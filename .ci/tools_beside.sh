# Rows of tools/beside, for .ci/test_tools, which has the functions.

# Plays the script that stands on standard input: WORD..
beside() {
    cat > "$room/script"
    call tools/beside "$room/script" "$@"
}

# Prints what stands beside the lines of a script, and is silent where these are not all there: SCRIPT < PRINTED
results() {
    awk -v script="$1" '
        BEGIN { while ((getline line < script) > 0) lines[++count] = line }
        /^    / { print substr($0, 5); next }
        {
            line = lines[++at]
            if (substr($0, 1, length(line)) != line) exit
            rest = substr($0, length(line) + 1)
            if (sub(/^ +/, "", rest)) print rest
        }
        END { if (at != count) print "lines of the script are missing" }'
}

for script in examples/*.script; do
    call tools/beside "$script"
    results "$script" < "$room/printed" > "$room/results"
    mv "$room/results" "$room/printed"
    row "$script: each result once and in order" 0 "$(cat "${script%.script}.out")" ""
done
for log in examples/*.steps; do
    call tools/beside "${log%.steps}.script" --steps
    results "${log%.steps}.script" < "$room/printed" > "$room/results"
    mv "$room/results" "$room/printed"
    row "$log: each line once and in order" 0 "$(cat "$log")" ""
done

beside << 'SCRIPT'
# Three bytes are written and read back.
nodes 1
client c0 n0 B.2.2 none

open c0 h0 'ck 7 end 1 16 0 1 16 8
write c0 h0 x 0 'abc
read c0 h0 x 0 16
SCRIPT
row "the first example of docs/FORMAT.md" 0 "# Three bytes are written and read back.
nodes 1
client c0 n0 B.2.2 none               c0.1 client OK B.2.2

open c0 h0 'ck 7 end 1 16 0 1 16 8    c0.2 open OK K1
write c0 h0 x 0 'abc                  c0.3 write OK
read c0 h0 x 0 16                     c0.4 read OK x616263" ""

stepped() {
    two_clients
    cat << 'SCRIPT'
begin write c0 h0 x 0 'abc
step c0 3
show K1
write c0 h0 x 0 'no
write c1 h0 x 0 'no
read c1 h0 x 0 16
finish c0
step c0 1
show K1
show K1
show K2
SCRIPT
}

stepped | beside
row "calls that are stepped, and two shows of one checkpoint" 0 "nodes 2
client c0 n0 B.2.2 none               c0.1 client OK B.2.2
client c1 n1 B.2.2 none               c1.1 client OK B.2.2
open c0 h0 'ck 7 end 1 16 0 1 16 8    c0.2 open OK K1
open c1 h0 'ck 3 end                  c1.2 open OK K1
begin write c0 h0 x 0 'abc
step c0 3
show K1
    K1 n0* g1 u0 held c0.3 x VALID end 0 x
    K1 n1 g1 u1 free x VALID end 3 x616263
write c0 h0 x 0 'no                   c0 write BUSY
write c1 h0 x 0 'no                   c1.3 write TRY_AGAIN c0.3
read c1 h0 x 0 16                     c1.4 read OK x
finish c0                             c0.3 write OK
step c0 1                             c0 step IDLE
show K1
    K1 n0* g1 u1 free x VALID end 3 x616263
    K1 n1 g1 u1 free x VALID end 3 x616263
show K1
    K1 n0* g1 u1 free x VALID end 3 x616263
    K1 n1 g1 u1 free x VALID end 3 x616263
show K2                               K2 gone" ""

beside --steps << 'SCRIPT'
nodes 1
client c0 n0 B.2.2 none
client c0 n0 B.2.2 none
client c1 n1 B.2.2 none
open c0 h0 'ck 7 end 1 16 0 1 16 8
begin write c0 h0 x 0 'abc
step c0.3 1
finish n0
at 5
step c0 1
step c0 1000000
begin read c0 h9 x 0 1
begin read c0 h0 x 0 1
SCRIPT
row "steps, words, a moment, and calls that end at once or are in hand at the end" 0 "nodes 1
client c0 n0 B.2.2 none
    + c0.1 begin client
    + c0.1 enter n0 ok
    c0.1 client OK B.2.2
client c0 n0 B.2.2 none       c0 client LIVE
client c1 n1 B.2.2 none       c1 client DOWN
open c0 h0 'ck 7 end 1 16 0 1 16 8
    + c0.2 begin open
    + c0.2 create K1 ok
    + c0.2 reserve K1 n0 ok
    + c0.2 finish K1 ok
    c0.2 open OK K1
begin write c0 h0 x 0 'abc    + c0.3 begin write
step c0.3 1                   c0.3 step IDLE
finish n0                     n0 finish IDLE
at 5                          + at 5
step c0 1                     + c0.3 stage K1 n0 ok
step c0 1000000
    + c0.3 commit K1 n0 ok
    c0.3 write OK
begin read c0 h9 x 0 1
    + c0.4 begin read
    c0.4 read BAD_HANDLE
begin read c0 h0 x 0 1        + c0.5 begin read
still in hand: c0.5 read" ""

beside << 'SCRIPT'
nodes 3
client c0 n0 B.2.2 none
open c0 h0 'ck 7 end 2 16 0 1 16 8
pull K1
write c0 h0 x 0 'abc
propagate K1
put K1 n1
put K1 n0
propagate K2
put K2 n1
SCRIPT
row "a pull, puts, and a propagation with a put behind it" 0 "nodes 3
client c0 n0 B.2.2 none               c0.1 client OK B.2.2
open c0 h0 'ck 7 end 2 16 0 1 16 8    c0.2 open OK K1
pull K1                               K1 pull OK 0
write c0 h0 x 0 'abc                  c0.3 write OK
propagate K1
    K1 pull OK 1
    K1 put n1 OK 1
    K1 put n2 OK 1
put K1 n1                             K1 put n1 OLD 1 1
put K1 n0                             K1 put n0 NONE
propagate K2                          K2 pull NONE
put K2 n1                             K2 put n1 NONE" ""

beside << 'SCRIPT'
nodes 2
fail n1
fail n1
join n1
join n1
SCRIPT
row "a node that fails and joins" 0 "nodes 2
fail n1    n1 fail OK
fail n1    n1 fail DOWN
join n1    n1 join OK 2
join n1    n1 join LIVE" ""

beside --steps << 'SCRIPT'
nodes 1
client c0 n0 B.2.2 both
openasync c0 h0 7 'ck 7 2 16 0 1 16 8
step c0.2 1
step c0.2 2
finish c0.2
syncasync c0 h0 8
begin openasync c0 h1 9 'no 3
step c0.4 9
dispatch c0 2
begin dispatch c0 3
dispatch c0 1
SCRIPT
row "asynchronous calls, their steps and ends, and the callbacks of a dispatch" 0 "nodes 1
client c0 n0 B.2.2 both
    + c0.1 begin client
    + c0.1 enter n0 ok
    c0.1 client OK B.2.2
openasync c0 h0 7 'ck 7 2 16 0 1 16 8
    + c0.2 begin openasync
    c0.2 openasync OK
step c0.2 1    + c0.2 create K1 ok
step c0.2 2
    + c0.2 reserve K1 n0 ok
    + c0.2 finish K1 ok
finish c0.2    c0.2 finish IDLE
syncasync c0 h0 8
    + c0.3 begin syncasync
    c0.3 syncasync BAD_HANDLE
begin openasync c0 h1 9 'no 3
    + c0.4 begin openasync
    c0.4 openasync OK
step c0.4 9    + c0.4 look refused
dispatch c0 2
    + c0.5 begin dispatch
    c0.5 dispatch OK 2 0
    c0 callback open 7 OK K1
    c0 callback open 9 NOT_EXIST
begin dispatch c0 3
    + c0.6 begin dispatch
    c0.6 dispatch INVALID_PARAM
dispatch c0 1
    + c0.7 begin dispatch
    c0.7 dispatch OK 0 0" ""

# c0.3 has ended, c0.4 is dropped with its handle, c0.5 is under way, and c1 goes with n1.
left() {
    cat << 'SCRIPT'
nodes 2
client c0 n0 B.2.2 both
client c1 n1 B.2.2 both
open c0 h0 'ck 7 end 2 16 0 1 16 8
openasync c0 h1 7 'ck 3
syncasync c0 h0 8
openasync c0 h2 9 'no 3
openasync c1 h0 9 'ck 3
begin read c1 h0 x 0 1
finish c0.3
close c0 h0
fail n1
begin unlink c0 'ck
SCRIPT
}

left > "$room/left"
call tools/beside - < "$room/left"
row "the calls that are in hand at the end, of a script on standard input" 0 "nodes 2
client c0 n0 B.2.2 both               c0.1 client OK B.2.2
client c1 n1 B.2.2 both               c1.1 client OK B.2.2
open c0 h0 'ck 7 end 2 16 0 1 16 8    c0.2 open OK K1
openasync c0 h1 7 'ck 3               c0.3 openasync OK
syncasync c0 h0 8                     c0.4 syncasync OK
openasync c0 h2 9 'no 3               c0.5 openasync OK
openasync c1 h0 9 'ck 3               c1.2 openasync OK
begin read c1 h0 x 0 1                c1.3 read BAD_HANDLE
finish c0.3
close c0 h0                           c0.6 close OK
fail n1                               n1 fail OK
begin unlink c0 'ck
still in hand: c0.5 openasync, c0.7 unlink" ""
{ printf 'nodes 1\nclient c0 n0 B.2.2 none\n'; printf '#\n%.0s' {1..9997}; printf "begin open c0 h0 'a 3 end\n"; } | beside
tail -n 1 "$room/printed" > "$room/last"
mv "$room/last" "$room/printed"
row "10,000 lines, with comments among them, leave room to ask" 0 "still in hand: c0.2 open" ""
{ printf 'nodes 1\nclient c0 n0 B.2.2 none\n'; printf 'at 1\n%.0s' {1..9997}; printf "begin open c0 h0 'a 3 end\n"; } | beside
tail -n 1 "$room/printed" > "$room/last"
mv "$room/last" "$room/printed"
row "10,000 lines that say something do not" 0 \
    "still in hand: not told, as the program does not play the script with the lines that ask for it" ""

long="write c0 h0 x 0 '$(printf 'a%.0s' {1..60})"
printf 'nodes 1\n%s' "$long" | beside
row "a long line, without an end, has its result below" 0 "nodes 1
$long
    c0.1 write BAD_HANDLE" ""
printf '' | beside
row "an empty script" 0 "" ""
printf '# \xff\t\n\n' | beside
row "a comment of any bytes" 0 "$(printf '# \xff\t\n')" ""

fault="line %s: %s
    %s
%s"

# A row for a script that is at fault: its NAME, the SCRIPT as printf reads it, the LINE, the REASON, the text and the RULE
at_fault() {
    # shellcheck disable=SC2059
    printf "$2" | beside
    # shellcheck disable=SC2059
    row "fault: $1" 3 "" "$(printf "$fault" "$3" "$4" "$5" "$6")"
}

at_fault "no such word" 'nodes 1\nfoo\n' 2 word "foo" '`foo` is the first word of no line.'
at_fault "two spaces" 'nodes  1\n' 1 word "nodes  1" \
    "Exactly one space stands between two words, and none at the ends of a line."
at_fault "a carriage return" 'nodes 1\r\n' 1 number 'nodes 1\r' '`1\r` is to be a number from 1 to 8.'
at_fault "nine nodes" 'nodes 9\n' 1 number "nodes 9" '`9` is to be a number from 1 to 8.'
at_fault "a long number" "nodes $(printf '9%.0s' {1..5000})\n" 1 number "nodes $(printf '9%.0s' {1..154}) ..." \
    "\`$(printf '9%.0s' {1..160}) ...\` is to be a number from 1 to 8."
at_fault "a word too few" 'nodes 1\n\nclient c0 n0 B.2\n' 3 count "client c0 n0 B.2" \
    "The line has too few or too many words. Its form: client C NODE VERSION CALLBACKS"
at_fault "begin alone" 'nodes 1\nbegin\n' 2 count "begin" "The line has too few or too many words. Its form: begin LINE"
at_fault "a line that is to be built" 'race\n' 1 "not built" "race" 'No line `race` is built yet.'
at_fault "a client that copies" 'nodes 2\ncopy c0\n' 2 word "copy c0" '`c0` is to be a node, n0 to n7.'
at_fault "a node too high" 'nodes 2\nfail n8\n' 2 word "fail n8" '`n8` is to be a node, n0 to n7.'
at_fault "a client that joins" 'nodes 2\njoin c0\n' 2 word "join c0" '`c0` is to be a node, n0 to n7.'
at_fault "the same behind begin" 'nodes 2\nbegin copy n8\n' 2 word "begin copy n8" '`n8` is to be a node, n0 to n7.'
at_fault "other callbacks" 'nodes 1\nclient c0 n0 B.2.2 all\n' 2 word "client c0 n0 B.2.2 all" \
    '`all` is to be `none`, `open`, `sync` or `both`.'
at_fault "an asynchronous open with half its attributes" "nodes 1\nopenasync c0 h0 7 'ck 7 1 16 0\n" 2 count \
    "openasync c0 h0 7 'ck 7 1 16 0" "The line has too few or too many words. Its form: openasync C H INVOCATION NAME \
FLAGS CREATION SIZE RETENTION SECTIONS MAX IDSIZE, or the same without the last six words"
at_fault "an invocation that is no number" "nodes 1\nsyncasync c0 h0 'a\n" 2 number "syncasync c0 h0 'a" \
    "\`'a\` is to be a number to 2^64 - 1."
at_fault "nodes twice" 'nodes 1\nnodes 1\n' 2 nodes "nodes 1" \
    'The first line that says something is `nodes`, and it is the only one of its kind.'
at_fault "a moment that goes back" 'nodes 1\nat 5\nat 4\n' 3 moment "at 4" \
    'No moment is below that of the `at` line before it.'
at_fault "no moment" 'nodes 1\nat end\n' 2 number "at end" '`end` is to be a moment, 0 to 2^63 - 2.'
at_fault "no call behind begin" 'nodes 2\nbegin at 5\n' 2 word "begin at 5" \
    '`at` is no call, as it has to be behind `begin`.'
at_fault "no steps" 'nodes 2\nstep c0 0\n' 2 number "step c0 0" '`0` is to be a number from 1 to 1,000,000.'
at_fault "a node shown" 'nodes 2\nshow n0\n' 2 word "show n0" '`n0` is to be a checkpoint, K1 to K9999.'
at_fault "a put at a ninth node" 'nodes 2\nput K1 n8\n' 2 word "put K1 n8" '`n8` is to be a node, n0 to n7.'
at_fault "a pull behind begin" 'nodes 2\nbegin pull K1\n' 2 word "begin pull K1" \
    '`pull` is no call, as it has to be behind `begin`.'
at_fault "half a byte" "nodes 1\nwrite c0 h0 'a 0 x1 'b 0 x\n" 2 bytes "write c0 h0 'a 0 x1 'b 0 x" '`x1` is to be bytes.'
at_fault "an identifier of 257 bytes, in the second element" "nodes 1\nread c0 h0 x 0 1 x$(printf '00%.0s' {1..257}) 0 1\n" \
    2 bytes "read c0 h0 x 0 1 x$(printf '0%.0s' {1..142}) ..." \
    "\`x$(printf '0%.0s' {1..159}) ...\` is to be an identifier, bytes of which there are at most 256."
at_fault "an active without a handle" 'nodes 1\nactive c0\n' 2 count "active c0" \
    "The line has too few or too many words. Its form: active C H"
at_fault "a timeout that is none" 'nodes 1\nsync c0 h0 x\n' 2 number "sync c0 h0 x" \
    '`x` is to be a time, a number from -2^63 to 2^63 - 1 or `end`.'
at_fault "too much to read" 'nodes 1\nread c0 h0 x 0 16777217\n' 2 reads "read c0 h0 x 0 16777217" \
    'The lengths that the `read` lines ask for are together at most 16,777,216, up to this line too.'
at_fault "a show too many" "nodes 1\n$(printf 'show K1\\n%.0s' {1..17})" 18 shows "show K1" \
    'A script has at most 16 `show` lines.'
at_fault "a line too many" "$(printf '\\n%.0s' {1..10000})#\n" 10001 lines "#" \
    "A script has at most 10,000 lines, with the empty ones and the comments."
{ printf '#'; head -c 262144 /dev/zero | tr '\0' a; } | beside
row "fault: too many bytes" 3 "" "line 0: length
A script has at most 262,144 bytes."

printf 'nodes 1\nfoo\n' > "$room/faulty"
call tools/beside - < "$room/faulty"
row "fault: of a script on standard input" 3 "" "line 2: word
    foo
\`foo\` is the first word of no line."
call tools/beside --steps
row "no script" 2 "" "beside: the following arguments are required: SCRIPT"
not_taken tools/beside examples/first.script
call tools/beside - <&-
row "a script on a standard input that is closed" 4 "" "beside: standard input: Bad file descriptor"
call tools/beside "$room/nosuch"
row "a script that is not there" 4 "" "beside: $room/nosuch: No such file or directory"
call tools/beside examples/first.script --program "$room/nosuch"
row "a program that is not there" 1 "" "beside: $room/nosuch: No such file or directory"
call tools/beside examples/first.script --program /bin/echo
row "a program that prints other lines" 1 "" "beside: what the program printed is not what the lines of examples/first.script print"
call tools/beside examples/first.script --program "$room/program"
row "it ends with the status of the program" 6 "" "no memory"
