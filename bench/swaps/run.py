#!/usr/bin/env python3
"""Runs two jobs at once on one swap path, again and again, and counts what they answer.

    bench/swaps/run.py [--pairs N] [--folder]

Build the program first, by ./run examples/first.job; STARJOB may name another. Both jobs have the same shape and other values, so that
one that read the other's blocks would print something wrong. Each run is right, or is refused with status 6 where the path is taken;
with --folder both go to one folder, and are right. Nothing may stay behind. The exit code is 1 where anything else came.
"""
import argparse, collections, os, subprocess, sys, tempfile

HERE = os.path.dirname(os.path.abspath(__file__))
TOP = os.path.dirname(os.path.dirname(HERE))
STARJOB = os.environ.get("STARJOB", os.path.join(TOP, "bin", "starjob"))
COUNT, NODE_VECTORS, ROUNDS = 512, 2, 40
REFUSED = b": File exists\nstarjob: disk 0 failed\n"


def job(first):
    """Four vectors on a node that holds two, added to one another round after round."""
    lines = ["starjob 1", f"node {NODE_VECTORS * 8 * COUNT}"]
    lines += [f"vector {name} {COUNT} fill {first} 1" for name in "abcd"]
    lines += [f"task add {a}:R {b}:RW" for a, b in ["ab", "cd", "ba", "dc", "ad", "cb"] * ROUNDS]
    lines += ["vector s 1 fill 0 0", "task sum d:R s:RW", "print s"]
    return ("\n".join(lines) + "\n").encode()


def start(swap, text):
    run = subprocess.Popen([STARJOB, "--swap", swap], stdin=subprocess.PIPE, stdout=subprocess.PIPE, stderr=subprocess.PIPE)
    run.stdin.write(text)
    run.stdin.close()
    return run


def answer(run, right):
    printed, said = run.stdout.read(), run.stderr.read()
    status = run.wait()
    run.stdout.close(), run.stderr.close()
    if status == 0:
        return "right" if printed == right else "wrong with status 0"
    if status == 6 and printed == b"" and said.endswith(REFUSED):
        return "refused"
    return f"status {status}: {said.decode(errors='replace').strip()}"


def main():
    words = argparse.ArgumentParser()
    words.add_argument("--pairs", type=int, default=200)
    words.add_argument("--folder", action="store_true")
    given = words.parse_args()
    texts = [job(1), job(1000)]
    rights = [subprocess.run([STARJOB], input=text, capture_output=True, check=True).stdout for text in texts]
    answers = collections.Counter()
    with tempfile.TemporaryDirectory() as folder:
        swap = folder if given.folder else os.path.join(folder, "swap")
        for _ in range(given.pairs):
            runs = [start(swap, text) for text in texts]
            answers.update(answer(run, right) for run, right in zip(runs, rights))
        left = os.listdir(folder)
    told = ", ".join(f"{count} {what}" for what, count in sorted(answers.items()))
    print(f"{given.pairs} pairs on one {'folder' if given.folder else 'path'}: {told}; {len(left)} files left")
    allowed = {"right"} if given.folder else {"right", "refused"}
    sys.exit(bool(left) or not set(answers) <= allowed)


main()
