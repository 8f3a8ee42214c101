#!/usr/bin/env python3
"""Looks whether the generator ends with the file and the line of what it does not know, and at an edit whose text is not there."""
import os
import sys

HERE = os.path.dirname(os.path.abspath(__file__))
ROOT = os.path.dirname(os.path.dirname(HERE))
sys.path.insert(0, HERE)
sys.dont_write_bytecode = True

from plain import plain  # noqa: E402
from plan import Plan  # noqa: E402
from scan import Unknown  # noqa: E402

PLAN = f"{HERE}/plan.toml"
FILE = "crates/tag_layout/src/bits.rt"
# What is added to the end of a file, and what has to be said of it.
FORMS = [
    ("static COUNT: u64 = 0;", "no item begins with `static`"),
    ("macro_rules! twice { () => {} }", "no item begins with `macro_rules`"),
    ("#[repr(C)]\nstruct Pair;", "the attribute #[repr(C)]"),
    ("fn shout() { println!(); }", "the macro println!"),
    ("fn list(alloc: Global) { vec![1, 2]; }", "this form of vec!"),
    ("use std::net::TcpStream;\nfn connect(to: TcpStream) {}", "the path std::net::TcpStream"),
    ("fn now() -> u64 { std::time::Instant::now() }", "the path std::time::Instant::now"),
    ("fn keep(caller: u32) -> Snapshot<u32> { Snapshot::of(&caller) }", "a snapshot that is not all of a statement"),
    ("fn twice() { let both = (log(), Snapshot::of(&1)); }", "a snapshot that is not all of a statement"),
    ("fn once() { let was = Snapshot::of(&log()); }", "a snapshot that is not all of a statement"),
    ("struct Noted { log: Snapshot<u32> }\nfn note() -> Noted { Noted { log: Snapshot::of(&log()) } }", "a call for a field"),
    ("impl Drop for u32 {}", "`Drop` that is no bound"),
    ("fn name() -> u32 { \N{GREEK SMALL LETTER LAMDA} }", "no token begins with"),
]


class Changed(Plan):
    """The plan, over sources of which one has another text."""

    def __init__(self, change):
        super().__init__(ROOT, PLAN)
        self.change = change

    def read(self, name):
        return self.change(name, super().read(name))


def said(run):
    """What it says of what it does not know."""
    try:
        run()
    except Unknown as fault:
        return str(fault)
    return "nothing"


def main():
    wrong = 0
    for form, wanted in FORMS:
        plan = Changed(lambda name, text: text + form + "\n" if name == FILE else text)
        found = said(lambda: plain(plan))
        if not found.startswith(f"{FILE}:") or wanted not in found:
            print(f"check: of {form!r} it said: {found}")
            wrong += 1
    edits = [it for edits in Plan(ROOT, PLAN).edits.values() for it in edits]
    for edit in edits:
        plan = Changed(lambda _, text: text.replace(edit["old"], ""))
        found = said(lambda: plan.edited(edit["file"]))
        if not found.startswith(edit["file"]):
            print(f"check: without the text of an edit of {edit['file']} it said: {found}")
            wrong += 1
    print(f"check: {len(FORMS) + len(edits) - wrong} of {len(FORMS) + len(edits)} refused")
    return 1 if wrong else 0


sys.exit(main())
