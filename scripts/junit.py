"""Writes results as JUnit XML, which CI systems show: a suite of cases, each of which passed, failed, ended without an answer,
or wasn't looked at."""
from xml.sax.saxutils import escape, quoteattr

from netlist import CONTROLS

# Each with the attribute that counts it.
KINDS = {"failure": "failures", "error": "errors", "skipped": "skipped"}


def plain(text):
    """A text that XML can have."""
    return "".join(f"\\x{ord(it):02x}" if it.isascii() and ord(it) in CONTROLS else it for it in text)


class Case:
    """A case: passed without a kind; else `failure`, `error` or `skipped`, with a message and more text."""

    def __init__(self, name, kind=None, message="", text="", seconds=0.0):
        self.name, self.kind, self.message, self.text, self.seconds = name, kind, message, text, seconds

    def lines(self, suite):
        head = f"  <testcase classname={quoteattr(plain(suite))} name={quoteattr(plain(self.name))} time=\"{self.seconds:.3f}\""
        if self.kind is None:
            yield head + "/>"
            return
        yield head + ">"
        yield f"    <{self.kind} message={quoteattr(plain(self.message))}>{escape(plain(self.text))}</{self.kind}>"
        yield "  </testcase>"


def xml(suite, cases):
    """A suite's text."""
    numbers = ((name, sum(it.kind == kind for it in cases)) for kind, name in KINDS.items())
    counts = " ".join(f'{name}="{number}"' for name, number in numbers)
    seconds = sum(it.seconds for it in cases)
    lines = ['<?xml version="1.0" encoding="UTF-8"?>']
    lines += [f'<testsuite name={quoteattr(plain(suite))} tests="{len(cases)}" {counts} time="{seconds:.3f}">']
    for it in cases:
        lines += it.lines(suite)
    return "\n".join([*lines, "</testsuite>", ""])
