# The cases of examples/program.sh on file systems and files that fail or change in the run, and on streams that end early or don't
# block; read by it.

# evicting COUNT: a job whose vectors of so many elements go out to the swap and back, more of them than fit the node
evicting() {
  local name other
  printf 'starjob 1\nnode %d\n' $((2 * 8 * $1))
  for name in a b c d; do printf 'vector %s %d fill %d 1\n' $name $1 $((1000 * $1)); done
  for name in a b c d; do
    for other in d c b a; do [ $name = $other ] || printf 'task add %s:R %s:RW\n' $name $other; done
  done
  printf 'print %s\n' a b c d
}

# swap_file PID: the file that a run swaps to, once something is in it; none where the run has ended before
swap_file() {
  local link
  for _ in {1..1000}; do
    [ -e /proc/$1/exe ] || return 1
    for link in /proc/$1/fd/*; do
      [[ $(readlink "$link") == *' (deleted)' ]] && [ "$(stat -L -c %b "$link")" != 0 ] && echo "$link" && return
    done
    sleep 0.02
  done
  return 1
}

# Blocks of many sizes, to their last byte, each by a run that evicts and one that doesn't.
wrong=0
for count in 1 2 61 64 509 510 511 512 513 1021 1024 1025 4093 4096 8189 8192 8193 20000 100003; do
  evicting $count > sized.job
  "$program" --node 1000000000 --swap-size 1000000000 < sized.job > sized.right
  for swap in '' '--swap swap' '--swap folder'; do
    "$program" --workers 1 $swap < sized.job > out 2> err && cmp -s out sized.right || wrong=$((wrong + 1))
    "$program" --workers 4 --nodes 2 --node $((24 * count)) $swap < sized.job > out 2> err && cmp -s out sized.right || wrong=$((wrong + 1))
  done
done
expect_true "blocks of many sizes, $wrong of 114 runs wrong" $wrong
left 'blocks of many sizes'

# The size of the file, while a run waits for somebody to read its output.
mkfifo unread
evicting 8192 > sized.job
"$program" --swap swap --swap-size 300000 < sized.job > unread 2> err &
running=$!
exec 8< unread
size=$(stat -L -c %s "$(swap_file $running)")
cat <&8 > out
exec 8<&-
wait $running
code=$?
"$program" < sized.job | cmp -s - out && [ $code = 0 ] && [ "$size" = 300000 ]
expect_true 'a swap file has its size and no more' $?

# A file system that is full, and one that is read only, where one can be mounted.
mkdir mounted
# run_mounted OPTIONS INPUT WORDS..
run_mounted() {
  printf %s "$2" | unshare -rm bash -c 'mount -t tmpfs -o "$1" none mounted && shift && exec timeout 60 "$@"' - "$1" "$program" "${@:3}" > out 2> err
  code=${PIPESTATUS[1]}
}
if unshare -rm mount -t tmpfs none mounted 2> /dev/null; then
  run_mounted size=64k "$(evicting 8192)" --swap mounted/swap
  expect 'a full file system' 6 '' $'starjob: swap mounted/swap: No space left on device\n'"$failed_disk"
  run_mounted size=64k "$(evicting 8192)" --swap mounted --workers 4
  expect 'a full file system, a folder there, four workers' 6 '' $'starjob: swap mounted: No space left on device\n'"$failed_disk"
  run_mounted ro "$evicts" --swap mounted/swap
  expect 'a file system that is read only' 6 '' $'starjob: swap mounted/swap: Read-only file system\n'"$failed_disk"
  run_mounted ro "$evicts" --swap mounted
  expect 'a folder that is read only' 6 '' $'starjob: swap mounted: Read-only file system\n'"$failed_disk"
fi

# A file that is cut short, or written to, in the run. The program is stopped meanwhile, and goes on through many transfers more. A run
# that ends before its file is found, or before it is stopped, tells nothing, and is tried again.
long() {
  evicting 512 | sed '/^print/d'
  yes $'task add a:R b:RW\ntask add c:R d:RW\ntask add b:R a:RW\ntask add d:R c:RW' | head -n 100000
  printf 'print a\n'
}
long > long.job
# change COMMAND..: stops the run of $running where it stands, and gives its swap file to the command
change() {
  local file
  file=$(swap_file $running) && kill -STOP $running && "$@" "$file"
  kill -CONT $running
}
# changed COMMAND..: a run whose swap file the command was given
changed() {
  for _ in {1..20}; do
    "$program" --swap swap < long.job > out 2> err &
    running=$!
    change "$@" 2> /dev/null
    wait $running
    code=$?
    [ $code = 0 ] || return
  done
}
cut() { truncate -s 0 "$1"; }
overwrite() { dd if=/dev/zero of="$1" bs=4096 count=8 conv=notrunc status=none; }
changed cut
[ $code != 7 ] || { code=6; echo 'starjob: disk 0 failed' > err; }
expect 'a swap file that is cut short in the run' 6 '' "$failed_disk"
changed overwrite
expect 'a swap file that is written to in the run' 7 '' $'starjob: disk 0 damaged: wanted cell *\n'
left 'a swap file that is changed'

# Streams that don't block are waited for: the job comes in two pieces, and the output is read late.
evicting 8192 > sized.job
python3 - "$program" sized.job out << 'END'
import os, subprocess, sys, time
program, job, out = sys.argv[1:]
given, gives = os.pipe()
takes, taken = os.pipe()
for end in (given, taken):
    os.set_blocking(end, False)
run = subprocess.Popen([program], stdin=given, stdout=taken, close_fds=True)
os.close(given), os.close(taken)
text = open(job, "rb").read()
for piece in (text[:30], text[30:]):
    time.sleep(0.1)
    os.write(gives, piece)
os.close(gives)
time.sleep(0.3)
with open(takes, "rb") as printed, open(out, "wb") as copy:
    copy.write(printed.read())
sys.exit(run.wait())
END
code=$?
"$program" < sized.job | cmp -s - out && [ $code = 0 ]
expect_true "streams that don't block are waited for" $?

# A reader that goes away.
"$program" < sized.job 2> err | head -c 1 > out
code=${PIPESTATUS[0]}
expect 'a reader that goes away' 9 a $'starjob: writing failed\n'
