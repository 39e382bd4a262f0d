# Rows of tools/cut, for .ci/test_tools, which has the functions.

# Cuts a call of the script that stands on standard input: WORD..
cut_call() {
    cat > "$room/script"
    call tools/cut "$room/script" "$@"
}

# A write that overlaps another, on two nodes, and what a client on the other node makes of it
written() {
    two_clients
    cat << 'SCRIPT'
write c0 h0 x 0 'old
# the write that is cut
write c0 h0 x 0 'new
read c1 h0 x 0 16
write c1 h0 x 3 'er
show K1
SCRIPT
}

# With n0 goes the client, and n1 alone is left. What is staged there is settled by the next write: every node that is
# left has it, so it is done.
written | cut_call 8 n0
row "a write, cut by the failure of its client's node" 0 "c0.4 write, line 8 of $room/script, cut by the failure of n0

steps  last step        left                            the call   later lines
0      begin            K1 n1* g2 u1 free: x 'old       abandoned  9 read OK 'old
                                                                   10 OK
                                                                   11 K1 n1* g2 u2 free: x 'older
1      stage K1 n0 ok   K1 n1* g2 u1 free: x 'old       abandoned  9 read OK 'old
                                                                   10 OK
                                                                   11 K1 n1* g2 u2 free: x 'older
2      stage K1 n1 ok   K1 n1* g2 u1 held c0.4: x 'old  abandoned  9 read OK 'old
                                                                   10 OK
                                                                   11 K1 n1* g2 u3 free: x 'newer
3      commit K1 n1 ok  K1 n1* g2 u2 free: x 'new       abandoned  9 read OK 'new
                                                                   10 OK
                                                                   11 K1 n1* g2 u3 free: x 'newer
4      commit K1 n0 ok  K1 n1* g2 u2 free: x 'new       OK         9 read OK 'new
                                                                   10 OK
                                                                   11 K1 n1* g2 u3 free: x 'newer" ""
# With n1 goes the other client. The write goes on at n0 alone, by what is left of a stage and a commit there.
written | cut_call 8 n1
row "the same, cut by the failure of the other node" 0 "c0.4 write, line 8 of $room/script, cut by the failure of n1

steps  last step        left                            the call    later lines
0      begin            K1 n0* g1 u1 free: x 'old       2 more: OK  9 read BAD_HANDLE
                                                                    10 write BAD_HANDLE
                                                                    11 K1 n0* g1 u2 free: x 'new
1      stage K1 n0 ok   K1 n0* g1 u1 held c0.4: x 'old  1 more: OK  9 read BAD_HANDLE
                                                                    10 write BAD_HANDLE
                                                                    11 K1 n0* g1 u2 free: x 'new
2      stage K1 n1 ok   K1 n0* g1 u1 held c0.4: x 'old  1 more: OK  9 read BAD_HANDLE
                                                                    10 write BAD_HANDLE
                                                                    11 K1 n0* g1 u2 free: x 'new
3      commit K1 n1 ok  K1 n0* g1 u1 held c0.4: x 'old  1 more: OK  9 read BAD_HANDLE
                                                                    10 write BAD_HANDLE
                                                                    11 K1 n0* g1 u2 free: x 'new
4      commit K1 n0 ok  K1 n0* g1 u2 free: x 'new       OK          9 read BAD_HANDLE
                                                                    10 write BAD_HANDLE
                                                                    11 K1 n0* g1 u2 free: x 'new" ""
# An open that is asynchronous makes its checkpoint on the nodes that are up: both, or n0 alone.
cut_call 4 n1 << 'SCRIPT'
nodes 2

client c0 n0 B.2.2 both
openasync c0 h0 7 'ck 7 1 16 0 1 16 8
finish c0.2
dispatch c0 2
write c0 h0 x 0 'a
read c0 h0 x 0 16
SCRIPT
row "an asynchronous open, which the later lines take on" 0 "c0.2 openasync, line 4 of $room/script, cut by the failure of n1

steps  last step         left                    the call  later lines
0      begin             K1 gone                 in hand   6 dispatch OK 1 0
                                                           6 c0 callback open 7 OK K1
                                                           7 OK
                                                           8 read OK 'a
1      create K1 ok      K1 gone                 in hand   6 dispatch OK 1 0
                                                           6 c0 callback open 7 OK K1
                                                           7 OK
                                                           8 read OK 'a
2      reserve K1 n0 ok  K1 gone                 in hand   6 dispatch OK 1 0
                                                           6 c0 callback open 7 OK K1
                                                           7 OK
                                                           8 read OK 'a
3      reserve K1 n1 ok  K1 gone                 in hand   6 dispatch OK 1 0
                                                           6 c0 callback open 7 OK K1
                                                           7 OK
                                                           8 read OK 'a
4      finish K1 ok      K1 n0* g1 u0 free: x x  ended     5 c0.2 finish IDLE
                                                           6 dispatch OK 1 0
                                                           6 c0 callback open 7 OK K1
                                                           7 OK
                                                           8 read OK 'a" ""
# A weak write, begun, whose client goes with n1. The bytes that are no letters are shown as hexadecimal.
weak() {
    cat << 'SCRIPT'
nodes 2
client c0 n1 B.2.2 none
client c1 n0 B.2.2 none
open c0 h0 'ck 7 end 4 64 0 4 32 8
open c1 h0 'ck 3 end
create c0 h0 'a end 'one
create c0 h0 'b 9 x00
begin write c0 h0 'a 0 'two
step c0 1
finish c0
over c1 h0 'a '01234567890123456
at 9
show K1
client c2 n1 B.2.2 none
SCRIPT
}

weak | cut_call 8 n1
row "a weak write behind begin, and the lines of it that come later" 0 "c0.5 write, line 8 of $room/script, cut by the failure of n1

steps  last step         left                                                  the call   later lines
0      begin             K1 n0* g1 u2 free: 'a 'one, 'b x00 until 9            abandoned  9 c0 step IDLE
                                                                                          10 c0 finish IDLE
                                                                                          11 OK
                                                                                          13 K1 n0* g1 u3 free: 'a '0123456789012345...
                                                                                          14 c2 client DOWN
1      mark K1 n0 ok     K1 n0* g1 u3 free: 'a 'one CORRUPTED, 'b x00 until 9  abandoned  9 c0 step IDLE
                                                                                          10 c0 finish IDLE
                                                                                          11 OK
                                                                                          13 K1 n0* g1 u4 free: 'a '0123456789012345...
                                                                                          14 c2 client DOWN
2      element K1 n0 ok  K1 n0* g1 u3 free: 'a 'two CORRUPTED, 'b x00 until 9  abandoned  9 c0 step IDLE
                                                                                          10 c0 finish IDLE
                                                                                          11 OK
                                                                                          13 K1 n0* g1 u4 free: 'a '0123456789012345...
                                                                                          14 c2 client DOWN
3      unmark K1 n0 ok   K1 n0* g1 u3 free: 'a 'two, 'b x00 until 9            OK         9 c0 step IDLE
                                                                                          10 c0 finish IDLE
                                                                                          11 OK
                                                                                          13 K1 n0* g1 u4 free: 'a '0123456789012345...
                                                                                          14 c2 client DOWN" ""
# The lines of a show count for themselves, also where a script has all that it may.
{
    printf "nodes 2\nclient c0 n0 B.2.2 none\nopen c0 h0 'ck 7 end 2 9 0 9 1 1\n"
    printf 'show K1\n%.0s' {1..16}
    printf "retain c0 h0 5\nopen c0 h0 'no 3 end\nread c0 h9 x 0 1\n"
} > "$room/script"
call tools/cut "$room/script" 20 n1
row "a script of sixteen shows" 0 "c0.3 retain, line 20 of $room/script, cut by the failure of n1

steps  last step     left                           the call    later lines
0      begin         K1 n0* g1 u0 free: no section  1 more: OK  21 open NOT_EXIST
                                                                22 read BAD_HANDLE
1      retain K1 ok  K1 n0* g1 u0 free: no section  OK          21 open NOT_EXIST
                                                                22 read BAD_HANDLE" ""
call tools/cut - 22 n1 < "$room/script"
row "a call that ends where it begins, the last line of a script on standard input" 0 \
    "c0.5 read, line 22 of standard input, cut by the failure of n1

steps  last step  left                           the call    later lines
0      begin      K1 n0* g1 u0 free: no section  BAD_HANDLE  none" ""
call tools/cut "$room/script" 2 n0
row "an Initialize at the node that fails: it is abandoned, or its client goes" 0 \
    "c0.1 client, line 2 of $room/script, cut by the failure of n0

steps  last step    left           the call   later lines
0      begin        no checkpoint  abandoned  3 open BAD_HANDLE
                                              4 K1 gone
$(for line in {5..19}; do printf '%46s%s\n' '' "$line K1 gone"; done)
                                              20 retain BAD_HANDLE
                                              21 open BAD_HANDLE
                                              22 read BAD_HANDLE
1      enter n0 ok  no checkpoint  OK B.2.2   3 open BAD_HANDLE
                                              4 K1 gone
$(for line in {5..19}; do printf '%46s%s\n' '' "$line K1 gone"; done)
                                              20 retain BAD_HANDLE
                                              21 open BAD_HANDLE
                                              22 read BAD_HANDLE" ""

sed -n '/^```text$/,/^```$/p' tools/README.md | sed '1d; $d' > "$room/page"
call tools/cut examples/update.script 10 n0
row "the table that tools/README.md shows" 0 "$(cat "$room/page")" ""

# A row for what can't be cut: its NAME, the STATUS, what is SAID, and the WORDS
no_cut() {
    local name=$1 wanted=$2 said=$3
    shift 3
    call tools/cut "$@"
    row "no cut: $name" "$wanted" "" "cut: $said"
}

no_cut "a comment" 1 "line 7 is no call: \`# the write that is cut\`" "$(written > "$room/script"; echo "$room/script")" 7 n0
no_cut "a show" 1 "line 11 is no call: \`show K1\`" "$room/script" 11 n0
no_cut "a line that is not there" 1 "the script has no line 12" "$room/script" 12 n0
no_cut "a node that was never up" 1 "n2 is not up in front of line 8, so it can't fail there" "$room/script" 8 n2
no_cut "line 0" 2 "argument LINE: \`0\` is no number of a line" "$room/script" 0 n0
no_cut "a name in place of a line" 2 "argument LINE: \`n0\` is no number of a line" "$room/script" n0 8
no_cut "a client in place of a node" 2 "argument NODE: \`c0\` is no node, n0 to n7" "$room/script" 8 c0
no_cut "no node" 2 "the following arguments are required: NODE" "$room/script" 8
no_cut "a script that is not there" 1 "$room/nosuch: No such file or directory" "$room/nosuch" 8 n0
no_cut "a program that is not there" 1 "$room/nosuch: No such file or directory" "$room/script" 8 n0 --program "$room/nosuch"
no_cut "a program that prints other lines" 1 "what the program printed is not what the lines of $room/script print" \
    "$room/script" 8 n0 --program /bin/echo
no_cut "a program that fails" 1 "the program ended with 6: no memory" "$room/script" 8 n0 --program "$room/program"
printf 'nodes 2\nstep c0 0\n' > "$room/faulty"
no_cut "a script with a fault" 3 "line 2: number: \`step c0 0\`: \`0\` is to be a number from 1 to 1,000,000." "$room/faulty" 1 n0
printf "nodes 2\nfail n1\nclient c0 n0 B.2.2 none\nbegin open c0 h0 'a 3 end\nunlink c0 'a\njoin n1\n" > "$room/script"
no_cut "a node that is down" 1 "n1 is not up in front of line 3, so it can't fail there" "$room/script" 3 n1
no_cut "a client that has a call in hand" 1 "line 5 begins no call: c0 unlink BUSY" "$room/script" 5 n0
written > "$room/script"
not_taken tools/cut "$room/script" 8 n1
