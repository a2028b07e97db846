#!/usr/bin/env python3
"""Asks for the completion of two lines in JSON and reads it: python3 examples/complete_json.py"""
import json
import os
import subprocess

folder = os.path.dirname(os.path.dirname(os.path.abspath(__file__)))

# 1 + t1*x on the line through (0, 0) in direction (1, 0), and 1 + t2*y on the one in direction (0, 1)
lines = [
    {"at": ["0", "0"], "dir": [1, 0], "terms": [["1", 1, [1, 0]]]},
    {"at": ["0", "0"], "dir": [0, 1], "terms": [["1", 1, [0, 1]]]},
]
asked = json.dumps({"scatter": 1, "vars": 2, "lines": lines})
answer = subprocess.run(["./scatter", "complete-json", "2", "1"], input=asked.encode(), stdout=subprocess.PIPE, cwd=folder)
if answer.returncode not in (0, 4):
    raise SystemExit(answer.stdout.decode())
diagram = json.loads(answer.stdout)
print("order", diagram["order"], diagram.get("stopped", ""))
for ray in diagram["rays"]:
    print("ray", ray["dir"], "at", ray["at"])
    for coefficient, multiple, powers in ray["terms"]:
        print("  ", int(coefficient), "times t to", powers, "times z to", [multiple * d for d in ray["dir"]])
