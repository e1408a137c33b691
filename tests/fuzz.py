"""Inputs that are changed at random, by bench/fuzz."""
import subprocess

from programs import TOP


def checks(context, count, seed, jobs):
    words = "--count", str(count), "--seed", str(seed), "--jobs", str(jobs), "--program", context.programs.igesolid
    done = subprocess.run([TOP / "bench" / "fuzz", *words], capture_output=True, text=True)
    for line in done.stdout.splitlines():
        if line.startswith("skipped: "):
            context.skipped(line.removeprefix("skipped: "))
    yield f"bench/fuzz:\n{done.stdout[-2_000:]}{done.stderr[-2_000:]}", done.returncode == 0
