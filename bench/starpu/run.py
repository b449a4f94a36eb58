#!/usr/bin/env python3
"""Times the product of two matrices of 2048 rows, and the shortest ways between 2048 places, beside StarPU's: by 1 and 4 workers, and out
of core on a node of an eighth of the data.

Build `starjob` first, by ./run examples/first.job, on a machine of four processors that does nothing else, with StarPU 1.3 installed
(Debian's libstarpu-dev) and gcc. Runs of both take turns, best of five unless a number is given. Ours is a whole run, from the job's text to its
end, with its tiles made; StarPU's is from the first submission to the last end, its tiles made before (jobs.c, plain loops by gcc -O3). Out of core both swap to a file in one folder; what StarPU moves is what it says of its disk, ours is by the trace.
"""
import os, re, subprocess, sys, tempfile, time

here = os.path.dirname(os.path.abspath(__file__))
top = os.path.dirname(os.path.dirname(here))
starjob = next((it for it in (os.path.join(top, "bin", "starjob"), os.path.join(top, "crates", "starjob", "out", "starjob")) if os.path.exists(it)), None)
RUNS = int(sys.argv[1]) if len(sys.argv) > 1 else 5
MIB, N = 1024 * 1024, 2048


def starpu(folder):
    flags = subprocess.run(["pkg-config", "--cflags", "--libs", "starpu-1.3"], capture_output=True, text=True)
    if flags.returncode != 0:
        sys.exit("StarPU isn't installed")
    program = os.path.join(folder, "jobs")
    subprocess.run(["gcc", "-O3", os.path.join(here, "jobs.c"), "-o", program, *flags.stdout.split()], check=True)
    return program


def product(p):
    """Its priorities keep the order of the text, as StarPU's default policy does by one worker."""
    yield from ("policy prio", *(f"matrix {name} {N} {N} by {p} {p} fill {rest}" for name, rest in (("A", "1 1"), ("B", "5 -2"), ("C", "0 0"))))
    for i in range(p):
        for j in range(p):
            yield from (f"task gemm A[{i},{k}]:R B[{k},{j}]:R C[{i},{j}]:RW prio={max(-1000, -1 - p * i - j)}" for k in range(p))


def ways(p):
    yield f"matrix D {N} {N} by {p} {p} fill 0 7"
    for k in range(p):
        others = [i for i in range(p) if i != k]
        yield f"task fwdiag D[{k},{k}]:RW"
        yield from (f"task fwrow D[{k},{k}]:R D[{k},{j}]:RW" for j in others)
        yield from (f"task fwcol D[{k},{k}]:R D[{i},{k}]:RW" for i in others)
        yield from (f"task mingemm D[{i},{k}]:R D[{k},{j}]:R D[{i},{j}]:RW" for i in others for j in others)


# for each job its lines, and the MiB of an eighth of its data
JOBS = {"product": (product, 12), "ways": (ways, 4)}


def job(folder, name, tile):
    path = os.path.join(folder, "job")
    with open(path, "w") as file:
        file.write("\n".join(["starjob 1", *JOBS[name][0](N // tile)]) + "\n")
    return path


def ours(path, words, output=subprocess.DEVNULL):
    with open(path) as source:
        begun = time.monotonic()
        done = subprocess.run([starjob, *words], stdin=source, stdout=output, check=True)
        return time.monotonic() - begun, done.stdout


def theirs(program, words, limit=None, stats=False):
    environment = {**os.environ, "STARPU_SILENT": "1"}
    if limit:
        environment["STARPU_LIMIT_CPU_MEM"] = str(limit)
    if stats:
        environment["STARPU_BUS_STATS"] = "1"
    done = subprocess.run([program, *map(str, words)], env=environment, capture_output=True, text=True, check=True, timeout=600)
    return float(re.search(r"^[\d.]+$", done.stdout, re.M)[0]), done.stdout + done.stderr


def turns(name, path, words, program, arguments, limit=None):
    a, b = zip(*((ours(path, words)[0], theirs(program, arguments, limit)[0]) for _ in range(RUNS)))
    print(f"{name}: {min(a):.3f} s, StarPU {min(b):.3f} s, {min(a) / min(b):.2f} of its time", flush=True)


def traffic(path, words, program, arguments, limit):
    trace = ours(path, [*words, "--trace"], subprocess.PIPE)[1]
    moved = [len(re.findall(pattern, trace, re.M)) / 8 for pattern in (rb"^moved c\d+ n\d+ d\d+$", rb"^moved c\d+ d\d+ n\d+$")]
    said = theirs(program, arguments, limit, stats=True)[1]
    disk = [float(re.search(way + r"\s+([\d.]+) GB", said)[1]) * 1024 for way in ("NUMA 0 -> Disk 0", "Disk 0 -> NUMA 0")]
    print(f"    out and in, MiB: {moved[0]:.0f} and {moved[1]:.0f}, StarPU {disk[0]:.0f} and {disk[1]:.0f}", flush=True)


def main():
    print(f"cores: {os.cpu_count()}, load: {os.getloadavg()[0]:.1f}")
    with tempfile.TemporaryDirectory() as folder:
        program = starpu(folder)
        for name, tile in (("product", 256), ("product", 128), ("ways", 128)):
            path = job(folder, name, tile)
            for workers in (1, 4):
                words = ["--workers", str(workers), "--node", str(1024 * MIB), "--swap-size", str(256 * MIB)]
                turns(f"{name}, tiles of {tile}, {workers} workers", path, words, program, [name, N, tile, workers])
        swap = os.path.join(folder, "swap")
        os.mkdir(swap)
        for name, (_, limit) in JOBS.items():
            path = job(folder, name, 128)
            for workers in (1, 4):
                words = ["--workers", str(workers), "--node", str(limit * MIB), "--swap", swap, "--swap-size", str(256 * MIB)]
                arguments = [name, N, 128, workers, swap]
                turns(f"{name} out of core, tiles of 128, {workers} workers", path, words, program, arguments, limit)
                traffic(path, words, program, arguments, limit)


main()
