#!/usr/bin/env python3
"""make_certificate.py CERTIFICATE BYTES: the entries of a certificate over and over, as a certificate of about so many bytes."""
import sys

lines = open(sys.argv[1], encoding="utf-8").read().split("\n")
entries, whole = "\n".join(lines[1:-2]) + "\n", int(lines[-2].split()[1])
times = int(sys.argv[2]) // len(entries)
sys.stdout.write(lines[0] + "\n")
for _ in range(times):
    sys.stdout.write(entries)
sys.stdout.write(f"Z {times * whole}\n")
