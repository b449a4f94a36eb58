#!/bin/sh
# Reads each example with each of its bytes changed to each of the 255 others, all of them, in one process: a program that calls the reader
# and writes canonical texts. A text is read as it should be where its canonical text is read to itself again, or where a line of it, or the
# one behind it, is refused. The program is written here, and proved and built in a scratch folder over the libraries that the repository has
# built (./run --build, or rt lib in each). Its answers are the reader's own, as their types say, so a reason needs no look.
#
#   bench/texts/bytes.sh [JOB..]     the examples, or these jobs
set -eu
here=$(cd "$(dirname "$0")" && pwd)
. "$here/../scratch.sh"
[ $# -gt 0 ] || set -- "$here"/../../examples/*.job
jobs=$(realpath "$@")
scratch $(needed sj_text sj_minplus)
for crate in crates/*; do
    if [ -d "$root/$crate/out/rlib" ]; then mkdir "$crate/out" && cp -r "$root/$crate/out/rlib" "$crate/out/"; fi
done
printf 'changes: sj_text sj_minplus sj_job sj_meaning sj_base\n' >> crates.txt
mkdir -p crates/changes/src
cat > crates/changes/src/main.rt <<'RT'
#![tactic(auto)]

use sj_base::ids::Line;
use sj_job::read::read;
use sj_job::reason::ReadRefusal;
use sj_minplus::library::Library;
use sj_text::text::job_text;
use std::alloc::Global;
use std::io;
use std::io::Read;

// What came of the texts so far.
#[derive(Clone, Copy, Debug)]
struct Tally {
    read: u64,
    refused: u64,
    failed: u64,
}

#[derive(Clone, Copy, Debug, PartialEq, Eq)]
enum Answer {
    Read,
    Refused,
    Failed,
}

impl Tally {
    fn count(&mut self, answer: Answer) {
        match answer {
            Answer::Read => self.read = self.read.saturating_add(1),
            Answer::Refused => self.refused = self.refused.saturating_add(1),
            Answer::Failed => self.failed = self.failed.saturating_add(1),
        }
    }
}

fn canonical(alloc: Global, text: &[u8]) -> Result<Vec<u8>, ReadRefusal> {
    let job = read(alloc, text, &Library)?;
    let text = job_text(alloc, &job)?;
    Ok(text)
}

// Whether it is its own canonical text.
fn is_canonical(alloc: Global, text: &[u8]) -> bool {
    match canonical(alloc, text) {
        Ok(again) => again.as_slice() == text,
        Err(_) => false,
    }
}

// The line behind the last one of a text.
fn line_behind(text: &[u8]) -> u64 {
    let mut line = 1u64;
    for byte in text {
        if *byte == b'\n' {
            line = line.saturating_add(1);
        }
    }
    if text.last() == Some(&b'\n') { line } else { line.saturating_add(1) }
}

fn judged(alloc: Global, text: &[u8]) -> Answer {
    match canonical(alloc, text) {
        Ok(first) if is_canonical(alloc, &first) => Answer::Read,
        Err(ReadRefusal::Refused { line: Line(line), .. })
            if line > 0 && line as u64 <= line_behind(text) =>
        {
            Answer::Refused
        }
        _ => Answer::Failed,
    }
}

fn put(text: &mut [u8], at: usize, byte: u8) {
    if let Some(place) = text.get_mut(at) {
        *place = byte;
    }
}

// Each byte in place of one of a text's, which comes back behind them.
fn tried_at(alloc: Global, text: &mut [u8], at: usize, old: u8, tally: &mut Tally) {
    for byte in 0..=255u8 {
        if byte != old {
            put(text, at, byte);
            tally.count(judged(alloc, text));
        }
    }
    put(text, at, old);
}

fn tried(alloc: Global, text: &mut [u8]) -> Tally {
    let mut tally = Tally {
        read: 0,
        refused: 0,
        failed: 0,
    };
    for at in 0..text.len() {
        if let Some(old) = text.get(at).copied() {
            tried_at(alloc, text, at, old, &mut tally);
        }
    }
    tally
}

fn main(rt: HostRuntime) -> io::Result<()> {
    let mut text = Vec::new(rt.alloc());
    rt.stdin().read_to_end(&mut text)?;
    let tally = tried(rt.alloc(), &mut text);
    println!(rt; "{} {} {}", tally.read, tally.refused, tally.failed)
}
RT
built changes first.txt < /dev/null
python3 - "$PWD/crates/changes/out/changes" "$here/.." $jobs <<'PY'
import os, subprocess, sys, time
program, jobs = sys.argv[1], sys.argv[3:]
sys.path.insert(0, sys.argv[2])
import figures
began, whole = time.monotonic(), [0, 0, 0]
for job in jobs:
    with open(job, "rb") as text:
        counts = [int(word) for word in subprocess.run([program], stdin=text, capture_output=True, check=True).stdout.split()]
    wanted = 255 * os.path.getsize(job)
    if len(counts) != 3 or sum(counts) != wanted:
        sys.exit(f"{job}: {counts}, where {wanted} texts are wanted")
    whole = [had + more for had, more in zip(whole, counts)]
    print(f"{os.path.basename(job)}: {counts[0]} read, {counts[1]} refused, {counts[2]} failed, after {time.monotonic() - began:.0f} s", flush=True)
print(f"{sum(whole)} texts: {whole[0]} read, {whole[1]} refused, {whole[2]} failed, {time.monotonic() - began:.0f} s")
figures.write("texts", [("bytes_failed", whole[2], "<=0", 0)])
sys.exit(whole[2] != 0)
PY
