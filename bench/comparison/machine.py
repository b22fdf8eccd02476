"""On what a run was measured, as a sentence."""
import os
import subprocess


def sentence(sides, rounds):
    return (
        f"Measured on {os.cpu_count()} cores ({processor()}) with {version(sides.gbrun)} and"
        f" {version(sides.suitesparse)}, whole processes, the best of {rounds} runs."
    )


def version(program):
    done = subprocess.run([program, "--version"], stdout=subprocess.PIPE, text=True, check=True)
    return done.stdout.strip()


def processor():
    with open("/proc/cpuinfo", encoding="utf-8") as lines:
        for line in lines:
            if line.startswith("model name"):
                return line.split(":", 1)[1].strip()
    return "of a kind that isn't told"
