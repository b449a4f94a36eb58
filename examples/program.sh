#!/usr/bin/env bash
# Runs the built programs as processes, and compares their exit codes and both their streams with what docs/JOBS.md promises: what
# main and the standard streams do with a status stands in no clause. Others are given as examples/program.sh STARJOB TRACE_CHECK,
# or by variables of these names.
here=$(realpath "$(dirname "$0")")
top=$here/..
# built NAME: where ./run has put a program, or else rt run
built() { if [ -x "$top/bin/$1" ]; then echo "$top/bin/$1"; else echo "$top/crates/$1/out/$1"; fi; }
starjob=$(realpath "${1:-${STARJOB:-$(built starjob)}}")
trace_check=$(realpath "${2:-${TRACE_CHECK:-$(built trace_check)}}")
program=$starjob
if [ ! -x "$starjob" ]; then
  echo "examples/program.sh: build starjob first, by ./run examples/first.job" >&2
  exit 1
fi
if [ ! -x "$trace_check" ]; then
  echo "examples/program.sh: build trace_check first, by ./run --build" >&2
  exit 1
fi
pictures=$(realpath "$here/../docs/pictures")
scratch=$(mktemp -d)
trap 'rm -rf "$scratch"' EXIT
cd "$scratch" || exit 2
failed=0

# expect WHAT CODE OUT ERR: of the run just made, whose streams stand in the files `out` and `err`; ERR is a pattern
expect() {
  if [ "$code" = "$2" ] && [ "$(cat out; echo .)" = "$3." ] && [[ "$(cat err; echo .)" == $4. ]]; then
    echo "ok: $1"
  else
    echo "FAILED: $1: exit code $code, where $2 is wanted; its streams:"
    head -n 3 out err
    failed=1
  fi
}

# expect_true WHAT STATUS: of a test just made
expect_true() {
  if [ "$2" = 0 ]; then
    echo "ok: $1"
  else
    echo "FAILED: $1"
    failed=1
  fi
}

# run INPUT WORDS..: runs the program on a text, for a minute at most
run() {
  local input=$1
  shift
  printf %s "$input" | timeout 60 "$program" "$@" > out 2> err
  code=${PIPESTATUS[1]}
}

# run_limited BLOCKS INPUT WORDS..: the same, where no file may have more than so many blocks of 1024 bytes
run_limited() {
  local blocks=$1 input=$2
  shift 2
  printf %s "$input" | (ulimit -f "$blocks" && exec timeout 60 "$program" "$@") > out 2> err
  code=${PIPESTATUS[1]}
}

# run_into_full INPUT: the same with a standard output that takes nothing
run_into_full() {
  printf %s "$1" | "$program" > /dev/full 2> err
  code=${PIPESTATUS[1]}
  : > out
}

good=$'starjob 1\nvector x 2 values 1 2\nprint x\n'
# unaccepted WHY WORDS..: the usage line, behind the one that says why
unaccepted() {
  run "$good" "${@:2}"
  expect "unaccepted: ${*:2}" 2 '' $'starjob: '"$1"$'\nstarjob: usage: starjob *\n'
}
# three vectors on a node that holds two
evicts=$'starjob 1\nnode 64\nvector a 3 values 1 2 3\nvector b 3 values 4 5 6\nvector c 3 values 7 8 9\nprint a\n'
evicted=$(cat "$pictures/evictions.trace")

run "$good"
expect 'a good job is done' 0 $'x: 1 2\n' ''
run $'starjob 1\nprint x\n'
expect 'a bad job is refused' 3 '' $'starjob: line 2: unknown name\n'
unaccepted 'word 1, --unknown, is no option' --unknown
unaccepted 'word 3, x, is no option' --workers 4 x
unaccepted 'word 2, --trace, stands twice' --trace --trace
unaccepted 'word 3, --workers=3, stands twice' --workers 2 --workers=3
unaccepted 'word 1, --trace=1, takes no value' --trace=1
unaccepted 'word 2, --workers, wants a value behind it' --trace --workers
unaccepted 'word 2, 0, is no number from 1 to 64' --workers 0
unaccepted 'word 1, --workers=-1, is no number from 1 to 64' --workers=-1
unaccepted 'word 2, 7, is no number from 8 to 1099511627776' --node 7
unaccepted 'word 2, 99999999999999999999, is no number from 0 to 1099511627776' --swap-size 99999999999999999999
unaccepted 'word 2, fifo, is none of eager, prio and ws' --sched fifo
unaccepted 'word 2, --trace, is no path: it is empty or begins with -' --swap --trace
unaccepted 'word 3, --nodes, stands only with --node' --workers 2 --nodes 2
unaccepted "a word is empty, or isn't UTF-8" ''
unaccepted "a word is empty, or isn't UTF-8" --trace $'\xff'
unaccepted 'word 3, --no, is no option' --swap swap --no
[ ! -e swap ]
expect_true 'unaccepted words make no swap file' $?

unaccepted 'word 1, --n, stands only with --app, --n, --tile and --seed' --n 4
unaccepted 'word 1, --app, stands only with --app, --n, --tile and --seed' --app paths --n 4
unaccepted 'word 2, sum, is none of product and paths' --app sum --n 4 --tile 2 --seed 1
unaccepted 'word 4, 2049, is no number from 1 to 2048' --app product --n 2049 --tile 2 --seed 1
unaccepted 'word 5, --tile, makes tiles larger than the matrix' --app product --n 4 --tile 5 --seed 1
unaccepted 'word 4, --tile, makes more than 48 tiles in a column' --app product --n=49 --tile 1 --seed 1

run 'no job' --app product --n 2 --tile 1 --seed 1
expect 'a product of four elements' 0 $'C 2 2:\n7 1\n19 5\n' ''
run 'no job' --app paths --n 1 --tile 1 --seed 7
expect 'walks of one vertex' 0 $'D 1 1:\n0\n' ''
for policy in eager prio ws; do
  for workers in 1 4; do
    run '' --app paths --n 96 --tile 20 --seed 7 --node 16384 --summary --sched $policy --workers $workers
    expect "shortest walks, $policy, $workers workers" 0 $'D 96 96: sum 492096 min 0 max 103 inf 0\n' ''
  done
done
run '' --app paths --n 480 --tile 20 --seed 7 --node 65536 --summary --workers 4
expect 'shortest walks of 480 vertices' 0 $'D 480 480: sum 56557440 min 0 max 487 inf 0\n' ''

run "$evicts" --workers 2 --node 64
expect 'two workers on a small node' 0 $'a: 1 2 3\n' ''
run "$evicts" --workers=4 --sched ws --node=64 --nodes 2
expect 'four workers on two small nodes' 0 $'a: 1 2 3\n' ''
run "$good" --trace
expect 'the trace behind the output' 0 $'x: 1 2\nclaim t0 w0\nrun t0 w0\nend t0 w0\nclaim t1 w0\nrun t1 w0\nend t1 w0\n' ''
run "$good" --summary
expect 'a summary in place of the elements' 0 $'x 1 2: sum 3 min 1 max 2 inf 0\n' ''
run $'starjob 1\nmatrix x 2 2 by 2 1 values inf -5 3 inf\nprint x\nvector y 2 fill inf 0\nprint y\n' --summary
expect 'elements that are inf, in a summary' 0 $'x 2 2: sum -2 min -5 max 3 inf 2\ny 1 2: sum 0 min - max - inf 2\n' ''
run "$good" --trace --summary
expect 'the trace behind a summary' 0 $'x 1 2: sum 3 min 1 max 2 inf 0\nclaim t0 w0\nrun t0 w0\nend t0 w0\nclaim t1 w0\nrun t1 w0\nend t1 w0\n' ''
run "$evicts" --trace
expect 'the trace of a run that evicts' 0 $'a: 1 2 3\n'"$evicted"$'\n' ''
run "$evicts" --node 24
expect 'the words win over the job, whose vectors then fit one by one' 0 $'a: 1 2 3\n' ''
run "$good" --node 8
expect 'a task that fits no node' 4 '' $'starjob: line 2: task needs 16 bytes on one node\n'
run "$good" --swap-size 0
expect 'a swap without room' 5 '' $'starjob: --swap-size 40 would do\nstarjob: swap needs 40 bytes, has 0\n'
run "$good" --swap-size 1099511627776
expect 'a swap of more memory than there is' 10 '' $'starjob: out of memory\n'
run "$good" --swap-size 40
expect 'a swap with just enough room' 0 $'x: 1 2\n' ''
source "$here/program_swap.sh"
source "$here/program_streams.sh"
source "$here/program_workers.sh"
source "$here/program_texts.sh"

run ''
expect 'an empty input' 3 '' $'starjob: line 1: header\n'
run_into_full "$good"
expect 'an output that takes nothing' 9 '' $'starjob: writing failed\n'
run_into_full $'starjob 1\n'
expect 'an output that takes nothing, with nothing to write' 0 '' ''
"$program" < / > out 2> err
code=$?
expect "an input that can't be read" 8 '' $'starjob: reading failed\n'
timeout 60 "$program" < /dev/zero > out 2> err
code=$?
expect 'an input that never ends' 3 '' $'starjob: line 0: limit Text\n'
# 3,000 bytes of output
run_limited 1 $'starjob 1\nvector x 300 fill 100000000 1\nprint x\n'
[ "$(stat -c %s out)" = 1024 ] || code=torn
: > out
expect 'an output beyond the limit of file sizes' 9 '' $'starjob: writing failed\n'
printf 'starjob 1\nvector x 300 fill 100000000 1\nprint x\n' | (ulimit -f 1 && exec timeout 60 "$program") > out 2>&1
code=${PIPESTATUS[1]}
[ "$(stat -c %s out)" = 1024 ] || code=torn
: > out > err
expect 'both streams in one file beyond that limit' 9 '' ''
# a run of three seconds or so; and one that waits for its job for longer than a second
if command -v script > /dev/null; then
  {
    printf 'starjob 1\nmatrix A 512 512 fill 1 1\nmatrix C 512 512 fill 0 0\n'
    for _ in {1..60}; do echo 'task gemm A:R A:R C:RW'; done
    printf 'vector x 2 values 1 2\nprint x\n'
  } > slow
  script -qec "$program < slow > out" shown > /dev/null
  code=$(grep -q 'of 64 tasks done, .* in hand' shown && echo shown)
  : > err
  expect 'a long run is shown on a terminal' shown $'x: 1 2\n' ''
  script -qec "(echo 'starjob 1'; sleep 1.2) | $program > out" shown > /dev/null
  code=$(grep -q 'tasks done' shown || echo silent)
  expect 'nothing is shown before a job runs' silent '' ''
fi

# check TRACE WORDS..: runs trace_check on a trace of the job that evicts, in a file
program=$trace_check
check() {
  printf %s "$1" > trace
  run "$evicts" "${@:2}" trace
}
usage=$'usage: trace_check \\[words of starjob\\] TRACE < JOB, or --program for TRACE, or --text alone\n'
early=${evicted/claim t2 w0/run t2 w0}
no_event=${evicted/drop c0 n0/drop c00 n0}

check "$evicted"$'\n'
expect 'a whole trace' 0 $'legal and complete\n' ''
check "${evicted%run t3*}"
expect 'a trace that ends early' 1 $'legal, but not all tasks are done\n' ''
check "$early"$'\n'
expect 'a bad event' 1 $'line 7: run t2 w0: this is no legal step after the events before it\n' ''
check "$evicted"$'\n' --node 72
expect 'the trace of another machine' 1 $'line 8: move c0 n0 d0: this is no legal step after the events before it\n' ''

check "$no_event"$'\n'
expect 'a line that is no event' 2 '' $'line 10 of the trace is no event\n'
check "$evicted"
expect 'a last line with no LF' 2 '' $'line 20 of the trace is no event\n'
run $'starjob 1\nprint x\n' trace.good
expect 'a trace that is not there' 2 '' $'the trace can\'t be read: No such file or directory\n'
run $'starjob 1\nprint x\n' /
expect 'a trace that is a folder' 2 '' $'the trace can\'t be read: Is a directory\n'
check $'claim t0 w0\n' --node 8
expect 'a job that fits no node' 2 '' $'a task of line 3 of the job fits no node\n'
check $'claim t0 w0\n' --swap-size 0
expect 'a job with too small a swap' 2 '' $'the swap disk is too small for the job\n'
run $'starjob 1\nprint x\n' trace
expect 'a bad job' 2 '' $'line 2 of the job is refused\n'
"$program" trace < / > out 2> err
code=$?
expect "a job that can't be read" 2 '' $'the job can\'t be read: Is a directory\n'
"$program" trace <&- > out 2> err
code=$?
expect 'no job' 2 '' $'the job can\'t be read: Bad file descriptor\n'
printf '%s\n' "$evicted" > trace
printf %s "$evicts" | "$program" trace >&- 2> err
code=${PIPESTATUS[1]}
: > out
expect 'a verdict that nobody hears' 0 '' ''
"$program" --help < /dev/null > out 2> err
code=$(head -c 18 out)$?
: > out
expect 'a call for help' 'usage: trace_check0' '' ''
run "$evicts"
expect 'no word' 2 '' "$usage"
check '' $'\xff'
expect "a word of the run that isn't UTF-8" 2 '' "$usage"
check '' --unknown
expect "a word of the run that isn't known" 2 '' "$usage"
check '' --nodes 2
expect 'a number of nodes for the run without their size' 2 '' "$usage"

# what it shows of a job
run $'starjob 1\nvector x 2 by 1 1 values 01 -2\nprint x\n' --text
expect 'the text of a job' 0 $'starjob 1\nworkers 1\nnode 268435456\npolicy eager\nvector x 2 values 1 -2\nprint x\n' ''
run $'starjob 1\nvector x 2 values 1 -2\nprint x\n' --workers 2 --program
expect 'the program of a job' 0 $'workers 2\ncell c0 r0 1 2\ntask t0 line 2 prio 0 load(1,-2) c0:W
task t1 line 3 prio 0 deliver c0:R\ndelivery t1 r0 0 0 print 0\n' ''
run "$evicts" --workers 2 --text
expect 'a further word before --text' 2 '' "$usage"
run $'starjob 1\nprint x\n' --text
expect 'the text of a bad job' 2 '' $'line 2 of the job is refused\n'
run $'starjob 1\nprint x\n' --program
expect 'the program of a bad job' 2 '' $'line 2 of the job is refused\n'
"$program" --text < "$pictures/paths.job" > /dev/full 2> err
code=$?
: > out
expect 'a text that no disk has room for' 2 '' $'standard output can\'t be written\n'

# shape JOB: the program of a job, without the numbers of its lines
shape() { "$program" --program < "$1" | sed 's/ line [0-9]*//'; }
for job in "$here"/*.job "$pictures"/*.job; do
  "$program" --text < "$job" > first && "$program" --text < first | cmp -s - first
  expect_true "the text of the text of ${job##*/} is that text" $?
  cmp -s <(shape "$job") <(shape first) && cmp -s <("$starjob" < "$job") <("$starjob" < first)
  expect_true "the text of ${job##*/} says the same job" $?
done
exit $failed
