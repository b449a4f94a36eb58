# The cases of examples/program.sh on workers that wait for one another; read by it.

# run_for_a_minute INPUT WORDS..: runs the program on a text, and ends it after a minute
run_for_a_minute() {
  local input=$1
  shift
  printf %s "$input" | timeout 60 "$program" "$@" > out 2> err
  code=${PIPESTATUS[1]}
}

# run_in_one_thread INPUT: the same, where no second thread can be started. The limit counts the processes of a user that has no other,
# since root has no limit
run_in_one_thread() {
  local as=()
  [ "$(id -u)" != 0 ] || as=(setpriv --reuid=54321 --regid=54321 --clear-groups)
  printf %s "$1" | timeout 60 bash -c 'ulimit -u 1 && exec "$@"' - "${as[@]}" "$scratch/alone" > out 2> err
  code=${PIPESTATUS[1]}
}

chmod 711 "$scratch"
cp "$program" "$scratch/alone"
chmod 755 "$scratch/alone"
run_in_one_thread $'starjob 1\nworkers 2\nnode 1000\nnode 8\nvector a 3 values 1 2 3\ntask scale(2) a:RW\nprint a\n'
expect 'two workers in one thread, of which one has room for no task' 0 $'a: 2 4 6\n' ''
run_in_one_thread $'starjob 1\nworkers 4\nnode 32\nnode 24\nvector a 2 values 1 2\nvector b 2 values 3 4\ntask add a:R b:RW\ntask add b:R a:RW\nprint a\nprint b\n'
expect 'four workers in one thread, on nodes that hold a task or less' 0 $'a: 5 8\nb: 4 6\n' ''

# 1,500 tasks on forty vectors of 64 elements, where a node holds the two of a task and no more
many=$(awk 'BEGIN {
  print "starjob 1"
  for (i = 0; i < 40; i++) print "vector v" i " 64 fill " i " 1"
  for (k = 0; k < 1500; k++) {
    a = (k * 7 + int(k / 40)) % 40
    b = (k * 11 + 3 + int(k / 13)) % 40
    if (a == b) b = (b + 1) % 40
    print "task add v" a ":R v" b ":RW"
  }
  for (i = 0; i < 40; i++) print "print v" i
}')$'\n'
run "$many"
many_out=$(cat out)
for policy in eager prio ws; do
  run_for_a_minute "$many" --workers 8 --node 1100 --nodes 2 --sched $policy
  expect "eight workers on two nodes that hold a task each, under $policy" 0 "$many_out"$'\n' ''
done
