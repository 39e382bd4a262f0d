# Rows of tools/chart, for .ci/test_tools, which has the functions.

# Makes a chart of the log that stands on standard input: WORD..
chart() {
    cat > "$room/log"
    call tools/chart "$room/log" "$@"
}

log() {
    cat << 'LOG'
+ c10.1 begin client
+ c10.1 enter n0 ok
c10.1 client OK B.2.2
+ c2.3 begin over
+ c2.3 stage K1 n0 ok
+ at 5
K1 n0* g1 u0 held c2.3 x VALID end 0 x
+ c10.2 begin over
+ c10.2 stage K1 n0 held c2.3
c10.2 over TRY_AGAIN c2.3
c2 read BUSY
n0 step IDLE
K3 pull HELD c2.1
K3 put n1 OLD 1 7
+ c2.3 commit K1 n0 ok
c2.3 over OK
K2 gone
LOG
}

log | chart
row "a chart for Mermaid" 0 "sequenceDiagram
    participant c2
    participant c10
    participant record
    participant n0
    participant n1
    Note over c10: c10.1 begin client
    c10->>record: enter n0 ok
    Note over c10: c10.1 client OK B.2.2
    Note over c2: c2.3 begin over
    c2->>n0: stage K1 ok
    Note over c2,n1: at 5
    Note over n0: K1* g1 u0 held c2.3 x VALID end 0 x
    Note over c10: c10.2 begin over
    c10->>n0: stage K1 held c2.3
    Note over c10: c10.2 over TRY_AGAIN c2.3
    Note over c2: c2 read BUSY
    Note over n0: n0 step IDLE
    Note over c2,n1: K3 pull HELD c2.1
    Note over n1: K3 put OLD 1 7
    c2->>n0: commit K1 ok
    Note over c2: c2.3 over OK
    Note over c2,n1: K2 gone" ""
log | chart --msc --calls c2.3
row "a call alone, for mscgen, with the moments, shows, pulls and puts in it" 0 'msc {
    width = "510";
    c2, n0, n1;
    c2 rbox c2 [label = "c2.3 begin over"];
    c2 => n0 [label = "stage K1 ok"];
    c2 note n1 [label = "at 5"];
    n0 note n0 [label = "K1* g1 u0 held c2.3 x VALID end 0 x"];
    c2 note n1 [label = "K3 pull HELD c2.1"];
    n1 note n1 [label = "K3 put OLD 1 7"];
    c2 => n0 [label = "commit K1 ok"];
    c2 rbox c2 [label = "c2.3 over OK"];
}' ""
log | chart --mermaid --from c10.2 --to c10.2
row "from a call to a call" 0 "sequenceDiagram
    participant c10
    participant n0
    Note over c10: c10.2 begin over
    c10->>n0: stage K1 held c2.3
    Note over c10: c10.2 over TRY_AGAIN c2.3" ""
log | call tools/chart - --from c2.3 --calls c2.3
row "two ways to pick" 2 "" "chart: --calls picks alone, without --from and --to"
log | call tools/chart - --calls c2.3,c2.4
row "a call that is not there" 1 "" "chart: the log has no call c2.4"
log | call tools/chart - --from c10.2 --to c10.1
row "an end before the beginning" 1 "" "chart: the call c10.1 ends before c10.2 begins"
printf '+ at 5\nnodes 1\n' | chart
row "a log that is none" 1 "" "chart: line 2 of $room/log is none of a step log"
printf '+ at 5\n' | chart
row "a moment alone" 0 "sequenceDiagram
    participant record
    Note over record: at 5" ""
printf '+ c0.4 install K1 n1 older\n' | chart
row "a replica that is not older" 0 "sequenceDiagram
    participant c0
    participant n1
    c0->>n1: install K1 older" ""
printf '%s\n' '+ c1.4 hold K1 n0 held c0.9' '+ c1.5 hold K1 n0 ok' '+ c1.5 activate K1 n1 ok' 'K1 put n0 STALE 2 3' | chart
row "an active that is set" 0 "sequenceDiagram
    participant c1
    participant n0
    participant n1
    c1->>n0: hold K1 held c0.9
    c1->>n0: hold K1 ok
    c1->>n1: activate K1 ok
    Note over n0: K1 put STALE 2 3" ""
printf '%s\n' 'n1 fail OK' 'n1 join OK 2' 'n1 join LIVE' | chart
row "a node that fails and joins, drawn at it" 0 "sequenceDiagram
    participant n1
    Note over n1: n1 fail OK
    Note over n1: n1 join OK 2
    Note over n1: n1 join LIVE" ""
printf '%s\n' '+ c0.5 begin dispatch' 'c0.5 dispatch OK 2 0' 'c0 callback open 7 TRY_AGAIN c1.3' 'c0 callback sync 9 OK 1' 'c1 read BUSY' | chart --calls c0.5
row "the callbacks of a dispatch, drawn with it" 0 "sequenceDiagram
    participant c0
    Note over c0: c0.5 begin dispatch
    Note over c0: c0.5 dispatch OK 2 0
    Note over c0: c0 callback open 7 TRY_AGAIN c1.3
    Note over c0: c0 callback sync 9 OK 1" ""
# Two nodes have K1. The open is over with its `finish`, and a synchronisation with the second of the two nodes.
operations() {
    cat << 'LOG'
+ c0.1 begin client
+ c0.1 enter n0 ok
c0.1 client OK B.2.2
+ c0.2 begin openasync
c0.2 openasync OK
+ c0.2 create K1 ok
+ c0.2 reserve K1 n0 ok
+ c0.2 reserve K1 n1 ok
+ c0.2 finish K1 ok
+ c0.3 begin dispatch
c0.3 dispatch OK 1 0
c0 callback open 7 OK K1
+ c0.4 begin syncasync
c0.4 syncasync OK
+ c0.5 begin syncasync
c0.5 syncasync OK
+ c0.4 pull K1 n0 ok
+ c0.5 pull K1 n0 ok
+ c0.5 install K1 n1 older
+ c0.4 install K1 n1 older
c0.4 step IDLE
+ c0.6 begin dispatch
c0.6 dispatch OK 1 1
c0 callback sync 9 OK 0
LOG
}

operations | chart --from c0.4
row "asynchronous operations: at their steps, where each ends, and at the callback of the one that has ended first" 0 \
    "sequenceDiagram
    participant c0
    participant n0
    participant n1
    Note over c0: c0.4 begin syncasync
    Note over c0: c0.4 syncasync OK
    Note over c0: c0.5 begin syncasync
    Note over c0: c0.5 syncasync OK
    c0->>n0: c0.4 pull K1 ok
    c0->>n0: c0.5 pull K1 ok
    c0->>n1: c0.5 install K1 older
    Note over c0: c0.5 ends
    c0->>n1: c0.4 install K1 older
    Note over c0: c0.4 ends
    Note over c0: c0.4 step IDLE
    Note over c0: c0.6 begin dispatch
    Note over c0: c0.6 dispatch OK 1 1
    Note over c0: c0.5 callback sync 9 OK 0" ""
operations | chart --msc --calls c0.2
row "an open that is asynchronous, with its callback" 0 'msc {
    width = "680";
    c0, record, n0, n1;
    c0 rbox c0 [label = "c0.2 begin openasync"];
    c0 rbox c0 [label = "c0.2 openasync OK"];
    c0 => record [label = "c0.2 create K1 ok"];
    c0 => n0 [label = "c0.2 reserve K1 ok"];
    c0 => n1 [label = "c0.2 reserve K1 ok"];
    c0 => record [label = "c0.2 finish K1 ok"];
    c0 rbox c0 [label = "c0.2 ends"];
    c0 rbox c0 [label = "c0.2 callback open 7 OK K1"];
}' ""
operations | chart --calls c0.3
row "a dispatch, with the callback that it gives" 0 "sequenceDiagram
    participant c0
    Note over c0: c0.3 begin dispatch
    Note over c0: c0.3 dispatch OK 1 0
    Note over c0: c0.2 callback open 7 OK K1" ""
# The client has K1 open twice and closes one. That may drop c0.4, or c0.5, or both, or none: the counts tell how many.
closed() {
    operations | head -n 20
    printf '%s\n' '+ c0.6 begin open' '+ c0.6 open K1 ok' 'c0.6 open OK K1' '+ c0.7 begin close' '+ c0.7 close K1 ok' \
        'c0.7 close OK' '+ c0.8 begin dispatch' "$@"
}

# The callbacks in the chart of what stands on standard input
callbacks() {
    chart
    grep callback "$room/printed" > "$room/callbacks"
    mv "$room/callbacks" "$room/printed"
}

closed 'c0.8 dispatch OK 1 1' 'c0 callback sync 9 OK 0' | callbacks
row "a close of one of two handles that has dropped none" 0 "    Note over c0: c0.2 callback open 7 OK K1
    Note over c0: c0.5 callback sync 9 OK 0" ""
closed 'c0.8 dispatch OK 1 0' 'c0 callback sync 9 OK 0' | callbacks
row "one that has dropped one of two: no name" 0 "    Note over c0: c0.2 callback open 7 OK K1
    Note over c0: c0 callback sync 9 OK 0" ""
printf '%s\n' 'c0 callback open 7 OK K1' '+ c0.4 install K1 n1 ok' 'c0.9 dispatch OK 1 0' 'c0 callback sync 9 OK 0' | chart
row "the end of a log, whose beginning is not there" 0 "sequenceDiagram
    participant c0
    participant n1
    Note over c0: c0 callback open 7 OK K1
    c0->>n1: install K1 ok
    Note over c0: c0.9 dispatch OK 1 0
    Note over c0: c0 callback sync 9 OK 0" ""
# n0 fails with c0, and what c0 has is dropped. It comes again, on n1, where the only replica is then.
{
    operations | head -n 20
    printf '%s\n' 'n0 fail OK' '+ c0.6 begin client' '+ c0.6 enter n1 ok' 'c0.6 client OK B.2.2' '+ c0.7 begin openasync' \
        'c0.7 openasync OK' '+ c0.7 open K1 ok' '+ c0.8 begin syncasync' 'c0.8 syncasync OK' '+ c0.8 pull K1 n1 ok' \
        '+ c0.9 begin dispatch' 'c0.9 dispatch OK 2 0' 'c0 callback open 1 OK K1' 'c0 callback sync 2 OK 0'
} | chart --from c0.7
row "operations of a client that has come again, and a synchronisation of one replica" 0 "sequenceDiagram
    participant c0
    participant record
    participant n1
    Note over c0: c0.7 begin openasync
    Note over c0: c0.7 openasync OK
    c0->>record: c0.7 open K1 ok
    Note over c0: c0.7 ends
    Note over c0: c0.8 begin syncasync
    Note over c0: c0.8 syncasync OK
    c0->>n1: c0.8 pull K1 ok
    Note over c0: c0.8 ends
    Note over c0: c0.9 begin dispatch
    Note over c0: c0.9 dispatch OK 2 0
    Note over c0: c0.7 callback open 1 OK K1
    Note over c0: c0.8 callback sync 2 OK 0" ""
call tools/chart examples/asynchronous.steps
grep -o 'c[01]\.[0-9]* callback [a-z]* [0-9]*' "$room/printed" > "$room/callbacks"
mv "$room/callbacks" "$room/printed"
# By the invocations of the script, whose second close drops c1.12 and c1.13 and no others
row "the callbacks of examples/asynchronous.script, each with its call" 0 "c0.2 callback open 7
c1.4 callback open 9
c1.3 callback open 8
c1.7 callback sync 21
c1.11 callback sync 31
c1.26 callback sync 46
c0.9 callback open 61
c0.10 callback open 62" ""
printf '' | chart
row "an empty log" 0 "sequenceDiagram
    participant record" ""
call tools/chart - --msc < /dev/null
row "an empty log on standard input, for mscgen" 0 'msc {
    width = "170";
    record;
}' ""
call tools/chart "$room/nosuch"
row "a log that is not there" 1 "" "chart: $room/nosuch: No such file or directory"
not_taken tools/chart examples/life.steps
printf 'c0.1 read OK x%s x x x x x x x x x x x x x x x x x x x x x x\n' "$(printf '0%.0s' {1..40})" | chart
row "long words and texts are cut" 0 "sequenceDiagram
    participant c0
    Note over c0: c0.1 read OK x0000000000000000... x x x x x x x x x x x ..." ""

for log in examples/*.steps; do
    steps=$(grep '^+' "$log" | grep -c -v -e '^+ at ' -e ' begin ')
    for language in mermaid msc; do
        call tools/chart "$log" --$language
        grep -c -e ' => ' -e '->>' "$room/printed" > "$room/count"
        mv "$room/count" "$room/printed"
        row "$log in $language: an arrow for each step" 0 "$steps" ""
    done
done
call tools/chart examples/update.steps --msc --from c0.4 --to c0.4
row "docs/pictures/update.msc is what is made of its step log" 0 "$(cat docs/pictures/update.msc)" ""
call bash docs/pictures/render --same
row "the texts of the pictures are what is made of their step logs" 0 "" ""
