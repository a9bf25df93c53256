#!/usr/bin/env python3
"""Draws the run of each schedule by tmsim --chart, and looks whether the picture is as it should be.

usage: charts.py [--with PROGRAM] [SCHEDULE ..]

A picture has to be well-formed XML, with a lane for each validator, a mark with its text for each message, decision and refusal of the
report, and as high as there are rows. Where a schedule is refused, no picture is made. Without PROGRAM the tmsim in bin/ is
taken (./build.sh builds it); with no schedule all of this folder are drawn. The last line is 'N passed, M failed'.
"""
import concurrent.futures
import os
import pathlib
import re
import subprocess
import sys
import tempfile
import xml.etree.ElementTree

HERE = pathlib.Path(__file__).resolve().parent
SVG = "{http://www.w3.org/2000/svg}"
MARGIN = "#    "
# A line of the report whose mark has the line's words, but for the validator, and one of a message, whose sender has them.
HAPPENED = re.compile(r"v\d+ ((decides|refuses) .*)")
RELEASED = re.compile(r"(\d+) [vc][\d.]+ (.*)")
# The letters of a text behind its first word.
LETTERS = 20


def cut(word, rest):
    return f"{word} {rest[:LETTERS]}…" if len(rest) > LETTERS else f"{word} {rest}"


def wanted_texts(report):
    """Returns the texts of the marks that a report has to have."""
    for line in report:
        if happened := HAPPENED.fullmatch(line):
            yield cut(*happened[1].split(" ", 1))
        elif released := RELEASED.fullmatch(line):
            yield cut(released[1], released[2])


def fault_of(lines, picture):
    """Returns what is wrong with a picture of a schedule of these lines, or None."""
    root = xml.etree.ElementTree.fromstring(picture)
    texts = [text.text for text in root.iter(f"{SVG}text")]
    rows = [text for text in root.iter(f"{SVG}text") if text.get("class") == "row"]
    setup = ("powers", "clients", "liars", "value", "#")
    executed = [line for line in lines if line and not line.startswith(setup)]
    ends = any(re.match(rf"{MARGIN}v\d+ at ", line) for line in lines)
    if len(rows) != len(executed) + 1 + ends:
        return f"{len(rows)} rows for {len(executed)} lines"
    if any(int(row.get("y")) > int(root.get("height")) for row in rows):
        return "a row is outside"
    powers = next(line for line in lines if line.startswith("powers")).split()[1:]
    if any(f"v{validator}" not in texts for validator in range(len(powers))):
        return "a validator has no lane"
    for text in wanted_texts(line[len(MARGIN):] for line in lines if line.startswith(MARGIN)):
        if text not in texts:
            return f"no mark of {text}"
        texts.remove(text)
    return None


def followed(program, schedule):
    ran = subprocess.run([program, "--follow", schedule], capture_output=True, text=True, check=False)
    return ran.returncode, ran.stdout.splitlines(), ran.stderr


def trouble_with(program, folder, schedule):
    """Returns what is wrong with the picture of a schedule, or None."""
    status, lines, errors = followed(program, schedule)
    picture = pathlib.Path(folder) / f"{schedule.stem}.svg"
    picture.write_text("an earlier picture", encoding="ascii")
    ran = subprocess.run([program, "--chart", picture, schedule], capture_output=True, text=True, check=False)
    if (ran.returncode, ran.stdout, ran.stderr) != (status, "", errors):
        return f"status {ran.returncode}, {ran.stdout}{ran.stderr}"
    text = picture.read_text(encoding="utf-8")
    if status == 2:
        return None if text == "an earlier picture" else "a picture of no schedule"
    try:
        return fault_of(lines, text)
    except xml.etree.ElementTree.ParseError as fault:
        return str(fault)


def main():
    words, program = sys.argv[1:], HERE.parent / "bin/tmsim"
    if words[:1] == ["--with"] and len(words) > 1:
        program, words = pathlib.Path(words[1]).resolve(), words[2:]
    if any(word.startswith("-") for word in words):
        print(__doc__, file=sys.stderr)
        return 2
    if not os.access(program, os.X_OK):
        print(f"charts.py: {program} is no program; ./build.sh makes it", file=sys.stderr)
        return 2
    schedules = [pathlib.Path(name).resolve() for name in words] or sorted(HERE.glob("*.txt"))
    failed = 0
    with tempfile.TemporaryDirectory() as folder, concurrent.futures.ThreadPoolExecutor(os.cpu_count()) as pool:
        words = [program, "--chart", f"{folder}/no_folder/picture.svg", HERE / "first_decision.txt"]
        nowhere = subprocess.run(words, capture_output=True, check=False).returncode
        if nowhere != 5:
            failed += 1
            print(f"a picture in no folder: status {nowhere}")
        for schedule, trouble in zip(schedules, pool.map(lambda it: trouble_with(program, folder, it), schedules)):
            if trouble:
                failed += 1
                print(f"{schedule.name}: {trouble}")
    print(f"{len(schedules) + 1 - failed} passed, {failed} failed")
    return 1 if failed else 0


if __name__ == "__main__":
    sys.exit(main())
