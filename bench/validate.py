#!/usr/bin/env python3
"""Measures how long `validate` takes: templates of 10, 100 and 500 resources, and of 1 MiB with 500 resources.

usage: bench/validate.py PROGRAM [RUNS]

PROGRAM is the built program, RUNS how often each template is read (20 if left out). The table tells the bytes of each
template, the shortest and the middle time of its runs, and the same with the time of a run on no template taken off, which
is what reading costs. The templates stand in a folder that is removed afterwards.
"""
import json
import statistics
import subprocess
import sys
import tempfile
import time
from pathlib import Path

MOST_BYTES = 1_048_576


def resource(number, filling):
    """A record that refers to the one before it, with a text that fills it up."""
    value = {"Fn::Join": ["-", [{"Ref": "Stage"}, f"value of {number}", filling]]}
    if number > 1:
        value = {"Fn::If": ["IsProd", value, {"Fn::Sub": f"${{R{number - 1:04}.Length}} after ${{Stage}}"}]}
    return {"Type": "Local::Records::Record", "Properties": {"Key": f"k{number}", "Value": value}}


def template(count, filling=""):
    """A template of so many resources, as bytes of compact JSON."""
    return json.dumps(
        {
            "AWSTemplateFormatVersion": "2010-09-09",
            "Parameters": {"Stage": {"Type": "String", "Default": "test", "AllowedValues": ["test", "prod"]}},
            "Conditions": {"IsProd": {"Fn::Equals": [{"Ref": "Stage"}, "prod"]}},
            "Resources": {f"R{number:04}": resource(number, filling) for number in range(1, count + 1)},
        },
        separators=(",", ":"),
    ).encode()


def largest(count):
    """A template of so many resources that has the most bytes a template may have."""
    bare = len(template(count))
    text = template(count, "x" * ((MOST_BYTES - bare) // count))
    return text + b" " * (MOST_BYTES - len(text))


def seconds(words, wanted):
    """How long one run takes; it must end in the exit that is wanted."""
    begin = time.perf_counter()
    run = subprocess.run(words, stdout=subprocess.PIPE, check=False)
    end = time.perf_counter()
    last = run.stdout.decode().splitlines()[-1:]
    if last != [wanted]:
        sys.exit(f"{' '.join(words)} ended in {last}, and not in {wanted!r}")
    return end - begin


def main():
    if len(sys.argv) not in (2, 3):
        sys.exit(__doc__)
    program = sys.argv[1]
    runs = int(sys.argv[2]) if len(sys.argv) == 3 else 20
    texts = {f"{count} resources": template(count) for count in (10, 100, 500)}
    texts["500 resources, 1 MiB"] = largest(500)
    with tempfile.TemporaryDirectory() as home:
        library = Path(home, "templates")
        library.mkdir()
        none = [program, home, "1", "--no-command"]
        start = min(seconds(none, "exit 1 BadWords") for _ in range(runs))
        print(f"{'template':24}{'bytes':>10}{'least ms':>10}{'middle ms':>11}{'reading ms':>12}")
        for number, (name, text) in enumerate(texts.items()):
            (library / f"t{number}").write_bytes(text)
            words = [program, home, "1", "validate", f"t{number}"]
            times = [seconds(words, "exit 0 Done") for _ in range(runs)]
            least, middle = min(times), statistics.median(times)
            print(
                f"{name:24}{len(text):>10}{1000 * least:>10.2f}{1000 * middle:>11.2f}{1000 * (least - start):>12.2f}"
            )


if __name__ == "__main__":
    main()
