"""The libraries that are loaded before the C library and make it fail: refuse_memory.c,
refuse_threads.c and delay_threads.c, alongside this file."""
import os
import subprocess

HERE = os.path.dirname(os.path.abspath(__file__))


def library_of(name, folder):
    """Builds the library NAME.c into the folder, and gives its path for LD_PRELOAD."""
    built = os.path.join(folder, f"{name}.so")
    source = os.path.join(HERE, f"{name}.c")
    subprocess.run(["gcc", "-O1", "-shared", "-fPIC", source, "-o", built], check=True)
    return built
