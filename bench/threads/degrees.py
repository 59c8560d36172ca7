#!/usr/bin/env python3
"""When the degrees of a stream come: of eight roots in two variables, read from the program through a pipe.

usage: degrees.py PROGRAM WORKERS DEGREE
"""
import pathlib
import subprocess
import sys
import time

program, workers, degree = sys.argv[1:]
here = pathlib.Path(__file__).parent
script = subprocess.run([here / "many_roots.py", "8", "2", f"stream {degree}"], capture_output=True, check=True).stdout
start = time.monotonic()
run = subprocess.Popen([program, "factor", "--workers", workers], stdin=subprocess.PIPE, stdout=subprocess.PIPE)
run.stdin.write(script)
run.stdin.flush()
for line in run.stdout:
    if line.startswith(b"degree "):
        print(f"{1e3 * (time.monotonic() - start):8.1f} ms  {line.decode().strip()}")
    if line == b"end\n":
        break
print(f"{1e3 * (time.monotonic() - start):8.1f} ms  end")
run.stdin.close()
sys.exit(run.wait())
