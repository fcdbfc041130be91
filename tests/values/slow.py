#!/usr/bin/env python3
"""Hands the program `values` its input bit by bit, through a pipe and through a terminal, and waits for the lines of the whole
blocks that have come before it hands over more: slow.py VALUES FILE REPORT."""
import os
import pty
import select
import subprocess
import sys
import termios
import time
import tty

PATIENCE = 10  # seconds for a line that is due
SILENCE = 0.1  # seconds in which no line comes that is not due
BLOCK = 512
CONTROL_D = b"\x04"


class Driver:
    """The program with its input from `source`; what is written to `sink` comes there."""

    def __init__(self, values, source, sink):
        self.program = subprocess.Popen([values], stdin=source, stdout=subprocess.PIPE, stderr=subprocess.PIPE, bufsize=0)
        self.sink = sink
        self.came = b""

    def more(self, seconds):
        """Takes what the program writes within so many seconds: whether there was anything."""
        ready, _, _ = select.select([self.program.stdout], [], [], seconds)
        text = os.read(self.program.stdout.fileno(), 65536) if ready else b""
        self.came += text
        return text != b""

    def expect(self, text, what):
        """All that has come by now is `text`, and no more comes for a while."""
        deadline = time.monotonic() + PATIENCE
        while len(self.came) < len(text) and self.more(max(0, deadline - time.monotonic())):
            pass
        self.more(SILENCE)
        if self.came != text:
            self.program.kill()
            sys.exit(f"values: slow: not so: {what}: expected ...{text[-60:]!r}, there is ...{self.came[-60:]!r}")

    def feed(self, data):
        while data:
            data = data[os.write(self.sink, data) :]

    def ended(self, what):
        """It comes to its end by itself, writes no more, and has said nothing on standard error."""
        try:
            rest, said = self.program.communicate(timeout=PATIENCE)
        except subprocess.TimeoutExpired:
            self.program.kill()
            sys.exit(f"values: slow: not so: {what}: it does not end")
        if self.program.returncode != 0 or rest or said:
            sys.exit(f"values: slow: not so: {what}: status {self.program.returncode}, {rest!r}, {said!r}")


def hand_over(driver, data, report, what):
    """One block after another, then two and a half, then the rest; the report's first line comes before anything is read."""
    lines = report.splitlines(keepends=True)
    ends = [0, BLOCK, 2 * BLOCK, 4 * BLOCK + BLOCK // 2, 4 * BLOCK + BLOCK - 1, 5 * BLOCK, 6 * BLOCK + 1, len(data)]
    driver.expect(lines[0], f"{what}: the header at once")
    for start, end in zip(ends, ends[1:]):
        driver.feed(data[start:end])
        driver.expect(b"".join(lines[: 1 + end // BLOCK]), f"{what}: the lines of {end} bytes")


def through_pipe(values, data, report):
    source, sink = os.pipe()
    os.set_inheritable(sink, False)
    driver = Driver(values, source, sink)
    os.close(source)
    hand_over(driver, data, report, "a pipe")
    os.close(sink)
    driver.expect(report, "a pipe: the end line")
    driver.ended("a pipe")


def through_terminal(values, data, report):
    """Raw but for the last byte, since Control-D has no meaning there. Elsewhere it hands over what was typed before it, and alone
    it is the end of the file."""
    sink, source = pty.openpty()
    tty.setraw(source)
    driver = Driver(values, source, sink)
    hand_over(driver, data[:-1], report, "a terminal")
    modes = termios.tcgetattr(source)
    modes[3] |= termios.ICANON
    termios.tcsetattr(source, termios.TCSANOW, modes)
    driver.feed(data[-1:] + CONTROL_D)
    driver.expect(report[: report.index(b"end ")], "a terminal: the last block")
    driver.feed(CONTROL_D)
    driver.expect(report, "a terminal: the end line")
    driver.ended("a terminal")


def main(values, file, report):
    with open(file, "rb") as cases, open(report, "rb") as lines:
        data, report = cases.read(), lines.read()
    through_pipe(values, data, report)
    through_terminal(values, data, report)


main(*sys.argv[1:])
