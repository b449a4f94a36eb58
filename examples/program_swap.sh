# The cases of examples/program.sh on the swap disk and on closed standard streams; read by it.

# left WHAT: nothing of the program's stands in the folder
left() {
  [ -z "$(find . -name 'swap*')" ] && [ -z "$(find folder -type f)" ]
  expect_true "nothing is left behind: $1" $?
}

mkdir folder closed
echo 'not mine' > taken
mkfifo pipe
failed_disk=$'starjob: disk 0 failed\n'

run "$evicts" --swap swap --swap-size 144
expect 'a swap file' 0 $'a: 1 2 3\n' ''
left 'a run that is done'
run "$evicts" --swap folder
expect 'a folder to swap to' 0 $'a: 1 2 3\n' ''
left 'a run in a folder'
run "$evicts" --swap missing/swap
expect "a swap file in a folder that isn't there" 6 '' $'starjob: swap missing/swap: No such file or directory\n'"$failed_disk"
run "$good" --swap missing/swap
expect "a swap that can't be made, though nothing would go there" 6 '' $'starjob: swap missing/swap: No such file or directory\n'"$failed_disk"
run "$evicts" --swap taken
expect 'a file that is there' 6 '' $'starjob: swap taken: File exists\n'"$failed_disk"
printf %s "$evicts" > own.job
"$program" --swap own.job < own.job > out 2> err
code=$?
expect 'the job as its own swap' 6 '' $'starjob: swap own.job: File exists\n'"$failed_disk"
[ "$(cat taken)" = 'not mine' ] && [ "$(cat own.job; echo .)" = "$evicts." ]
expect_true 'files that are there stay as they are' $?
ln -s nowhere link
run "$evicts" --swap link
expect 'a link to nothing' 6 '' $'starjob: swap link: File exists\n'"$failed_disk"
run "$evicts" --swap $'no\nwhere/\e[31m'
expect 'a path with a line end in it' 6 '' $'starjob: swap no\\?where/\\?\\[31m: No such file or directory\n'"$failed_disk"
run "$evicts" --swap pipe
expect 'a pipe to swap to' 6 '' $'starjob: swap pipe: Illegal seek\n'"$failed_disk"
python3 -c 'import socket; socket.socket(socket.AF_UNIX).bind("socket")'
run "$evicts" --swap socket
expect 'a socket to swap to' 6 '' $'starjob: swap socket: Illegal seek\n'"$failed_disk"
printf %s "$good" | timeout 10 "$program" --swap /dev/stdin > out 2> err
code=${PIPESTATUS[1]}
expect 'the input as its own swap' 6 '' $'starjob: swap /dev/stdin: Illegal seek\n'"$failed_disk"
run "$evicts" --swap /dev/full
expect 'a swap that takes nothing' 6 '' $'starjob: swap /dev/full: No space left on device\n'"$failed_disk"
run "$evicts" --swap /dev/zero
expect 'a swap that forgets' 7 '' $'starjob: disk 0 damaged: wanted cell 0 writes 1 length 3, found cell 0 writes 0 length 0\n'
run "$good" --swap swap --swap-size 0
expect 'a swap file without room' 5 '' $'starjob: --swap-size 40 would do\nstarjob: swap needs 40 bytes, has 0\n'
run $'starjob 1\nprint x\n' --swap swap
expect 'a bad job with a swap file' 3 '' $'starjob: line 2: unknown name\n'
left 'jobs that are refused'
run_limited 100 "$evicts" --swap swap
expect 'a swap file beyond the limit of file sizes' 6 '' $'starjob: swap swap: File too large\n'"$failed_disk"
run_limited 100 "$evicts" --swap swap --swap-size 102400
expect 'a swap file just within the limit' 0 $'a: 1 2 3\n' ''
left 'a limit of file sizes'

# Numbers of standard streams that are closed aren't given to the swap file.
for swap in '' '--swap swap' '--swap folder'; do
  "$program" $swap <&- > out 2> err
  code=$?
  expect "no input ${swap:-without a swap file}" 8 '' $'starjob: reading failed\n'
  printf %s "$evicts" | "$program" $swap >&- 2> err
  code=${PIPESTATUS[1]}
  : > out
  expect "no output ${swap:-without a swap file}" 9 '' $'starjob: writing failed\n'
  printf %s "$evicts" | "$program" $swap --nodes 2 > out 2>&-
  code=${PIPESTATUS[1]}
  : > err
  expect "no errors ${swap:-without a swap file}" 2 '' ''
  "$program" $swap <&- >&- 2>&-
  code=$?
  expect "no stream ${swap:-without a swap file}" 8 '' ''
done
left 'closed streams'

# A run that is killed while it reads.
mkfifo held
"$program" --swap swap < held > out 2> err &
killed=$!
exec 9> held
sleep 0.2
{ kill -9 $killed && wait $killed; } 2> /dev/null
exec 9>&-
left 'a run that is killed'

# Two runs at once on one path, of which each is right or is refused; in one folder both are right.
rows() { printf 'starjob 1\nnode %d\n' $((2 * 8 * 512)); }
pair() {
  local name
  rows
  for name in a b c d; do printf 'vector %s 512 fill %d 1\n' $name $1; done
  printf 'task add %s:R %s:RW\n' a b c d b a d c a d b c
  printf 'vector s 1 fill 0 0\ntask sum d:R s:RW\nprint s\n'
}
pair 1 > one.job
pair 1000 > two.job
"$program" < one.job > one.right
"$program" < two.job > two.right
refused=$'starjob: swap swap: File exists\n'"$failed_disk"
wrong=0
for ((i = 0; i < 50; i++)); do
  for swap in swap folder; do
    "$program" --swap $swap < one.job > one.out 2> one.err & first=$!
    "$program" --swap $swap < two.job > two.out 2> two.err & second=$!
    wait $first; one=$?
    wait $second; two=$?
    for job in one two; do
      case $swap:${!job} in
        *:0) cmp -s $job.out $job.right || wrong=$((wrong + 1)) ;;
        swap:6) [ "$(cat $job.err; echo .)" = "$refused." ] || wrong=$((wrong + 1)) ;;
        *) wrong=$((wrong + 1)) ;;
      esac
    done
  done
done
expect_true "two runs at once on one path: $wrong of 200 wrong" $wrong
left 'two runs at once'
