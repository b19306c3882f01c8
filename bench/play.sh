#!/bin/sh
# Times `./hovgyelit play`, and prints what it takes. No part of the gate. Needs a date that knows %N, and GNU time.
#
# First four runs, each of 10,000 and of 20,000 steps: where the cost of a step does not grow with the run, with the
# instances or with their pages, the ratio of the two times is near 2. Then one visit whose cost grows and whose script
# stays: where time grows with the cost alone, the last column stays. Then the operations over one long operand and over
# many short ones, at the same cost: where none is slower than its operands' size, the ratio is near 1. Then the reading of
# scripts: with twice the names and references the ratio is near 2, and with ten times the levels of a template of one size
# near 1. Then a loop, and questions, with tasks and without them at one cost: where a call takes no longer than a `let`, the ratio
# is near 1; and how many bytes of a journal each page of these questions takes. Then 9,000 answers to pages with few and with many pages before them, of a walk, which keeps nothing of its answers, and
# of a quiz, which keeps them: a visit goes on from what is kept of its page, so they take the same time, but for the size of
# that. A page 32 deep is 32 links from one whose state is kept by itself,
# and one 33 deep is such a page. Last, how many bytes a started instance takes with its page, and one page more of an instance,
# after few and many pages and after a short and a long answer.

here=$(CDPATH='' cd -- "$(dirname -- "$0")/.." && pwd) || exit 1
# The program by itself: the launcher looks at the sources first, and is a process with a peak of its own.
program=$here/crates/script_server/out/script_server
work=$(mktemp -d "${TMPDIR:-/tmp}/hovgyelit-bench.XXXXXX") || exit 1
trap 'rm -rf "$work"' EXIT
trap 'exit 1' HUP INT TERM

# The setup of an example, with the line `steps`.
setup_of() {
    setup_with "$1" "$(cat "$here/examples/$1.scm")"
}

# A setup of one script of this name and text.
setup_with() {
    printf 'script %s %d\n%s\nsteps\n' "$1" "$(printf '%s' "$2" | wc -c)" "$2"
}

# What the generators of steps share: a line that answers page K of instance I with a query.
page='function page(name, i, k, query) { return sprintf("/servlets/%s;0*%d*%d*%016x%s", name, i, k, k, query) }'

# Of every five steps one starts an instance, one answers its first page, one answers the page after that and ends, one
# goes back to the first page, and one goes back to the first page of the first instance, whose pages grow to 1,000.
sum() {
    setup_of sum
    awk -v steps="$1" "$page"'
        BEGIN {
            for (j = 0; j < steps; j++) {
                turn = j % 5
                first = j - turn
                target = "/servlets/sum"
                if (turn == 1) target = page("sum", first, first, "?n=3")
                if (turn == 2) target = page("sum", first, first + 1, "?n=4")
                if (turn == 3) target = page("sum", first, first, "?n=10")
                if (turn == 4) target = page("sum", j < 5000 ? 0 : first, j < 5000 ? 0 : first, "?n=" j)
                printf "get %d %s\n", j % 16, target
            }
        }'
}

# Of every 32 steps the first starts a shop; then fifteen workers take its page, publish in the other order, and one more
# visits it: one is sold the item, and each later publish finds its reads out of date and is run again.
shop() {
    setup_of shop
    awk -v steps="$1" "$page"'
        BEGIN {
            for (j = 0; j < steps; j++) {
                turn = j % 32
                round = (j - turn) / 32
                first = round * 17
                if (turn == 0) print "get 0 /servlets/shop"
                else if (turn < 16) printf "take %d %s\n", turn, page("shop", first, first, "?name=Ann")
                else if (turn < 31) printf "publish %d\n", 31 - turn
                else printf "get 0 %s\n", page("shop", first, first, "?name=Bo")
            }
        }'
}

# Of every five steps one starts a booking, one answers it and is forwarded, one answers the page that was revoked, one
# finishes and frees the instance, and one lets the clock go on. Every fifth booking is left unfinished, and freed by a
# tick once its pages are expired.
booking() {
    setup_of booking
    awk -v steps="$1" "$page"'
        BEGIN {
            number = 0
            for (j = 0; j < steps; j++) {
                turn = j % 5
                if (turn == 0) { first = number++; print "get 0 /servlets/booking" }
                if (turn == 1) { second = number++; printf "get 1 %s\n", page("booking", first, first, "?who=Ann") }
                if (turn == 2) printf "get 2 %s\n", page("booking", first, first, "?who=Bo")
                if (turn == 3 && j % 25 == 3) printf "get 3 %s\n", page("booking", first, first, "?who=Cy")
                if (turn == 3 && j % 25 != 3) { number++; printf "get 3 %s\n", page("booking", first, second, "") }
                if (turn == 4) printf "tick %d\n", j
            }
        }'
}

# Every fifth step is a start, and the others answer it: a loop of 20 turns over a text of 400 bytes.
texts() {
    setup_with texts "(begin (send/suspend (lambda (u) \`(a ((href ,u)) \"on\"))) \`(p ,@(for/list ((i 20)) $(long_text 400))))"
    awk -v steps="$1" "$page"'
        BEGIN {
            for (j = 0; j < steps; j++) {
                first = j - j % 5
                if (j > first) printf "get 1 %s\n", page("texts", first, first, "")
                else print "get 0 /servlets/texts"
            }
        }'
}

# A text of so many bytes.
long_text() {
    awk -v bytes="$1" 'BEGIN { printf "\""; for (i = 0; i < bytes; i++) printf "x"; printf "\"" }'
}

# The time now in milliseconds.
now() {
    echo $(($(date +%s%N) / 1000000))
}

# Plays the input that lies in the file `in` under these options, and leaves the time in `took`.
play() {
    before=$(now)
    "$program" play "$@" <"$work/in" >"$work/out" || { echo "play ended with status $?" >&2; exit 1; }
    took=$(($(now) - before))
}

# Plays so many steps of a run, tests that as many replies as wanted are of a status, and prints the time.
run() {
    name=$1 steps=$2 wanted=$3 status=$4
    "$name" "$steps" >"$work/in"
    play --instances 4096 --pages 1024 --life 600
    replies=$(grep -c "^[0-9][0-9]* $status" "$work/out")
    [ "$replies" -eq "$wanted" ] || { echo "$name: $replies replies of status $status for $steps steps" >&2; exit 1; }
}

# A run of 10,000 and of 20,000 steps, with how many of 10,000 steps are answered by a page.
twice() {
    run "$1" 10000 "$2" 200
    short=$took
    run "$1" 20000 "$3" 200
    awk -v name="$1" -v short="$short" -v long="$took" 'BEGIN {
        printf "%-8s 10,000 steps %5d ms, 20,000 steps %5d ms, ratio %.2f\n", name, short, long, (short > 0 ? long / short : 0)
    }'
}

# A visit that goes over a text of 1,000 bytes so many times: each turn costs 1,005.
visit() {
    setup_with visit "\`(p ,(number->string (length (for/list ((i $1)) (string-length $(long_text 1000))))))" >"$work/in"
    echo 'get 0 /servlets/visit' >>"$work/in"
    play --fuel 10000000
    grep -q '^0 200 ' "$work/out" || { echo "a visit of $1 turns was answered by no page" >&2; exit 1; }
    awk -v turns="$1" -v took="$took" 'BEGIN {
        printf "visit    of cost %8d: %5d ms, %6.1f ns a unit of cost\n", turns * 1005, took, took * 1e6 / (turns * 1005)
    }'
}

# An operation over a list or text `x` of this size, in so many turns.
operation() {
    size=$1 turns=$2 expression=$3
    setup_with op "(let* ((l (for/list ((i $size)) 1)) (t $(long_text "$size"))) \`(p ,(number->string (length (for/list ((i $turns)) (begin $expression 1))))))" >"$work/in"
    echo 'get 0 /servlets/op' >>"$work/in"
    play --fuel 10000000
    grep -q '^0 200 ' "$work/out" || { echo "$expression was answered by no page" >&2; exit 1; }
}

# The same cost over many short operands and over few long ones.
both_sizes() {
    operation 100 40000 "$1"
    short=$took
    operation 10000 400 "$1"
    awk -v expression="$1" -v short="$short" -v long="$took" 'BEGIN {
        printf "%-22s short %5d ms, long %5d ms, ratio %.2f\n", expression, short, long, (short > 0 ? long / short : 0)
    }'
}

# A script that binds so many names at once, and refers to each of them.
names() {
    awk -v count="$1" 'BEGIN {
        printf "(let ("
        for (i = 0; i < count; i++) printf "(n%d 1)", i
        printf ") (list"
        for (i = 0; i < count; i++) printf " n%d", i
        printf "))"
    }'
}

# A template of so many levels, with 12,000 items in all before what stands innermost.
levels() {
    awk -v levels="$1" 'BEGIN {
        printf "`"
        for (level = 0; level < levels; level++) {
            printf "(p"
            for (i = 0; i < 12000 / levels; i++) printf " 1"
            printf " "
        }
        printf ",(+ 1 1)"
        for (level = 0; level < levels; level++) printf ")"
    }'
}

# Checks a setup of fifteen scripts of this text, and leaves the time in `took`.
check() {
    for i in 1 2 3 4 5 6 7 8 9 10 11 12 13 14 15; do
        printf 'script s%d %d\n%s\n' "$i" "${#1}" "$1"
    done >"$work/in"
    before=$(now)
    "$program" check <"$work/in" >"$work/out" || { echo "check ended with status $?: $(cat "$work/out")" >&2; exit 1; }
    took=$(($(now) - before))
}

# Fifteen scripts of two sizes.
reading() {
    check "$("$1" "$2")"
    first=$took
    check "$("$1" "$3")"
    awk -v name="$1" -v few="$2" -v many="$3" -v first="$first" -v second="$took" 'BEGIN {
        printf "15 scripts of %d and of %d %s: %d ms and %d ms, ratio %.2f\n", few, many, name, first, second, (first > 0 ? second / first : 0)
    }'
}

# Five visits of a loop of 1,000,000 turns, each of which does this after these definitions, at the fuel that is named, and at
# one less by none of them; leaves the time of the first in `took`.
turns() {
    setup_with turns "$1 \`(p ,(number->string (length (for/list ((j 1000)) (length (for/list ((i 1000)) $2))))))" >"$work/in"
    for i in 1 2 3 4 5; do echo 'get 0 /servlets/turns'; done >>"$work/in"
    play --fuel "$(($3 - 1))"
    [ "$(grep -c '^0 503 fuel$' "$work/out")" -eq 5 ] || { echo "a loop costs less than $3" >&2; exit 1; }
    play --fuel "$3"
    [ "$(grep -c '^0 200 ' "$work/out")" -eq 5 ] || { echo "a loop costs more than $3" >&2; exit 1; }
}

# The same loop with a task, and with a `let` in its place.
with_tasks() {
    turns '(define-task (f x) (+ x 1))' '(call f i)' 8004009
    called=$took
    turns '' '(let ((x i)) (+ x 1))' 8004009
    awk -v called="$called" -v bound="$took" 'BEGIN {
        printf "5 visits of cost 8,004,009 with tasks %d ms, without %d ms, ratio %.2f\n", called, bound, (bound > 0 ? called / bound : 0)
    }'
}

# Of every three steps of a script one starts it, and two answer its pages.
questions_of() {
    setup_with questions "$1"
    awk -v steps="$2" "$page"'
        BEGIN {
            for (j = 0; j < steps; j++) {
                first = j - j % 3
                if (j > first) printf "get 1 %s\n", page("questions", first, j - 1, "?n=3")
                else print "get 0 /servlets/questions"
            }
        }'
}

# The time of 12,000 such steps, in `took`, and the bytes of the journal that each of the 8,000 pages takes that wait, in `bytes`.
questions() {
    questions_of "$1" 12000 >"$work/in"
    play --instances 4096
    [ "$(grep -c '^[01] 200 ' "$work/out")" -eq 12000 ] || { echo "a question was answered by no page" >&2; exit 1; }
    without=$took
    rm -rf "$work/journal"
    play --instances 4096 --journal "$work/journal"
    took=$without
    bytes=$(($(cat "$work/journal"/* | wc -c) / 8000))
}

# Two questions by one task, and each of them written out.
questions_by_tasks() {
    asked='(extract-binding/single (quote n) (send/suspend (lambda (u) `(a ((href ,u)) ,t))))'
    questions "(define-task (ask t) $asked) \`(p ,(call ask \"1\") ,(call ask \"2\"))"
    called=$took called_bytes=$bytes
    questions "\`(p ,(let ((t \"1\")) $asked) ,(let ((t \"2\")) $asked))"
    awk -v called="$called" -v bound="$took" 'BEGIN {
        printf "12,000 steps with questions by a task %d ms, without %d ms, ratio %.2f\n", called, bound, (bound > 0 ? called / bound : 0)
    }'
    echo "bytes of a journal for each of their pages: $called_bytes with a task, $bytes without"
}

# A setup with two scripts, whose names and whose pages are of one length, and 4,000 starts, the first so many of them of
# the script that leaves an instance with a page; each other start ends and leaves none.
starts() {
    stay='(send/suspend (lambda (u) "a page"))'
    gone='"a page"'
    printf 'script stay %d\n%s\nscript gone %d\n%s\nsteps\n' "${#stay}" "$stay" "${#gone}" "$gone"
    awk -v live="$1" 'BEGIN { for (j = 0; j < 4000; j++) printf "get %d /servlets/%s\n", j % 16, (j < live ? "stay" : "gone") }'
}

# The peak of the program's memory over those starts, in bytes.
peak() {
    starts "$1" >"$work/in"
    /usr/bin/time -f %M -o "$work/peak" "$program" play --instances 4096 <"$work/in" >"$work/out" ||
        { echo "play ended with status $?" >&2; exit 1; }
    pages=$(grep -c '^[0-9][0-9]* 200 ' "$work/out")
    [ "$pages" -eq 4000 ] || { echo "$pages pages for 4000 starts" >&2; exit 1; }
    peak=$(($(tail -n 1 "$work/peak") * 1024))
}

# A script of sixty pages in a row that keeps nothing of their answers, so what is kept of it is the same at each of them.
walk_text() {
    awk 'BEGIN {
        printf "(begin"
        for (i = 0; i < 60; i++) printf " (send/suspend (lambda (u) `(a ((href ,u)) \"on\")))"
        printf " `(p))"
    }'
}

# So many runs of that walk, or of a quiz of 300 questions, which keeps the answers: in each of them answers up to a page so many
# pages deep, and then so many answers to that page, each of which shows a page.
deep() {
    if [ "$1" = walk ]; then setup_with walk "$(walk_text)"; else setup_of "$1"; fi
    awk -v name="$1" -v depth="$2" -v answers="$3" -v runs="$4" "$page"'
        BEGIN {
            for (number = run = 0; run < runs; run++) {
                first = last = number++
                print "get 0 /servlets/" name
                for (j = 0; j < depth; j++) {
                    print "get 0 " page(name, first, last, j == 0 ? "?count=300" : "?word=x")
                    last = number++
                }
                for (j = 0; j < answers; j++) {
                    print "get 0 " page(name, first, last, "?word=y")
                    number++
                }
            }
        }'
}

# Plays them, and tests that each step is answered by a page.
play_deep() {
    deep "$@" >"$work/in"
    play --pages 1024
    pages=$(grep -c '^0 200 ' "$work/out")
    [ "$pages" -eq $(($4 * (1 + $2 + $3))) ] || { echo "$pages pages $2 deep" >&2; exit 1; }
}

# The time of 9,000 answers to pages of this script and depth, without that of the way to them.
depth() {
    play_deep "$1" "$2" 0 10
    way=$took
    play_deep "$1" "$2" 900 10
    echo "9,000 answers to pages of a $1, $2 deep: $((took - way)) ms"
}

# What the peak with 4,000 live instances has more than that with 1,000 is what 3,000 of them take. Both runs read and write
# as many bytes, and 1,000 instances are enough to fill what the reading of the input left free.
bytes_of_an_instance() {
    peak 1000
    few=$peak
    peak 4000
    echo "bytes of a started instance with its page: $(((peak - few) / 3000))"
}

# The peak of the program's memory where so many answers were given to a page of this depth, in bytes.
peak_deep() {
    deep quiz "$1" "$2" 1 >"$work/in"
    /usr/bin/time -f %M -o "$work/peak" "$program" play --pages 1024 <"$work/in" >"$work/out" ||
        { echo "play ended with status $?" >&2; exit 1; }
    peak=$(($(tail -n 1 "$work/peak") * 1024))
}

# What 600 more pages of one instance take, each shown after a page of this depth.
bytes_of_a_page() {
    peak_deep "$1" 300
    few=$peak
    peak_deep "$1" 900
    echo "bytes of a page after one $1 deep: $(((peak - few) / 600))"
}

# So many answers with this query to the first page of an example, of which the first so many find the page, and the others
# name one that is not there.
answers() {
    setup_of "$1"
    awk -v name="$1" -v count="$2" -v found="$3" -v query="$4" "$page"'
        BEGIN {
            print "get 0 /servlets/" name
            for (j = 0; j < count; j++) print "get 0 " page(name, 0, j < found ? 0 : 100000, "") query
        }'
}

# The peak of the program's memory over those answers, in bytes, where the journal is a file.
peak_of_answers() {
    answers "$1" "$2" "$3" "$4" >"$work/in"
    rm -rf "$work/journal"
    /usr/bin/time -f %M -o "$work/peak" "$program" play --pages 1024 --journal "$work/journal" <"$work/in" >"$work/out" ||
        { echo "play ended with status $?" >&2; exit 1; }
    pages=$(grep -c '^0 200 ' "$work/out")
    [ "$pages" -eq $(($3 + 1)) ] || { echo "$pages pages for $3 answers" >&2; exit 1; }
    peak=$(($(tail -n 1 "$work/peak") * 1024))
}

# What most of so many answers take, each with the page that it leaves; all runs read as many bytes.
bytes_of_answers() {
    peak_of_answers "$1" "$3" $(($3 / 3)) "$4"
    few=$peak
    peak_of_answers "$1" "$3" "$3" "$4"
    echo "bytes of a page after the first of $1, with $2: $(((peak - few) / ($3 - $3 / 3)))"
}

# A query of so many names without a value.
names_alone() {
    awk -v count="$1" 'BEGIN { printf "?a"; for (i = 1; i < count; i++) printf "&a" }'
}

# The program is built, if need be, before anything is timed.
"$here/hovgyelit" check -- "$here/examples/sum.scm" >/dev/null || exit 1

twice sum 10000 20000
twice shop 5305 10625
twice booking 5600 11200
twice texts 10000 20000

# The first run after those may wait for what they wrote.
visit 10 >/dev/null
for turns in 10 100 1000 9000; do visit "$turns"; done

both_sizes '(length l)'
both_sizes '(reverse l)'
both_sizes '(cons 1 l)'
both_sizes '(cdr l)'
both_sizes '(append l l)'
both_sizes '(list-ref l 0)'
both_sizes '(equal? l l)'
both_sizes '(string-length t)'
both_sizes '(string-append t t)'
both_sizes '(string=? t t)'

reading names 2000 4000
reading levels 10 100

with_tasks
questions_by_tasks

for pages in 1 10 32 33 50; do depth walk "$pages"; done
for pages in 1 10 32 33 50; do depth quiz "$pages"; done

bytes_of_an_instance
for pages in 1 10 50; do bytes_of_a_page "$pages"; done
bytes_of_answers sum 'a number' 900 '?n=3'
bytes_of_answers pay '65,536 bytes of a&a&..' 90 "$(names_alone 32768)"
