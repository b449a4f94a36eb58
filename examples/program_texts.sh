# The cases of examples/program.sh on texts that are made to break a reader; read by it. bench/texts has more of them.

# refused TEXT LINE REASON: a text behind the header, whose lines `/` divides
refused() {
  local text
  text=$(printf 'starjob 1/%s' "$1" | tr / '\n')
  run "$text"
  expect "refused: ${1:0:60}" 3 '' "starjob: line $2: $3"$'\n'
}

# many COUNT TEXT: it, so often
many() { printf "$2%.0s" $(seq "$1"); }

one='vector x 1 values 1'
name=$(many 31 n)
refused 'vector x 0 none' 2 'limit Elements'
refused 'vector x 1048577 none' 2 'limit Elements'
refused 'matrix x 4096 4097 none' 2 'limit Elements'
refused 'vector x 99999999999999999999 none' 2 number
refused 'vector x 1 values 9223372036854775808' 2 number
refused 'vector x 1 values -9223372036854775809' 2 number
refused "vector ${name}n 1 none" 2 word
refused $'vector x 1 none \x80' 2 word
refused "$one/task scale(2) x" 3 word
refused "$one/task scale(2) x[0,0:RW" 3 word
refused "$one/task scale(2) x$(many 500 '[')0,0]:RW" 3 word
refused "$one/task scale$(many 500 '(')2) x:RW" 3 word
refused "$one/task scale(2) x:RW prio=1001" 3 'limit Priority'
refused "$one/task scale(2) x:RW prio=-1001" 3 'limit Priority'
refused "$one/workers 2" 3 word
refused 'vector x 1 none/plan x 65 64' 3 'limit Parts'
refused 'vector x 1 none/plan x 0 1' 3 part
refused 'node 7' 2 'limit NodeBytes'
refused 'node 1099511627777' 2 'limit NodeBytes'
refused 'workers 65' 2 'limit Workers'
refused "$(many 17 'node 8/')" 18 'limit Nodes'
run "starjob 1
workers 64
$(many 15 $'node 8\n')
node 1099511627776
vector $name 2 values 9223372036854775807 -9223372036854775808
matrix A 64 64 by 64 64 none
task fill(000,1) $name:W prio=1000
print $name"
expect 'as much as the limits allow' 0 "$name: 0 1"$'\n' ''

# the whole of first.job and what stands before each of its bytes, read and run; each of its bytes changed to eight others, read
first=$(cat "$here/first.job")
lines=$(wc -l < "$here/first.job")
wrong=0
# answered: whether the run just made is done, or refused with a line of its text or the one behind it
answered() {
  case $code in
    0) [ ! -s err ] ;;
    3) [ ! -s out ] && [[ $(cat err) =~ ^starjob:\ line\ ([0-9]+):\ [a-zA-Z\ ]+$ ]] && [ "${BASH_REMATCH[1]}" -le $((lines + 2)) ] ;;
    *) false ;;
  esac
}
for ((at = 0; at <= ${#first}; at++)); do
  run "${first:0:at}"
  answered || { echo "FAILED: first.job to byte $at: exit code $code"; wrong=1; }
done
expect_true 'each prefix of first.job is read' $wrong
wrong=0
for ((at = 0; at < ${#first}; at += 5)); do
  for byte in ' ' '#' '[' ',' '9' $'\t' $'\n' $'\x7f'; do
    run "${first:0:at}$byte${first:at+1}"
    answered || { echo "FAILED: first.job with another byte $at: exit code $code"; wrong=1; }
  done
done
expect_true 'first.job with another byte is read' $wrong
