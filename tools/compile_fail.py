#!/usr/bin/env python3
"""Tries the edits in crates/NAME/compile-fail, each of which the compiler must refuse before the prover is asked.

An edit has four lines: the file, from the crate's folder, a text that stands once in it, what takes its place, and the
name of the error that must be met.
"""
import os
import pathlib
import re
import shutil
import subprocess
import sys
import tempfile

REPOSITORY = pathlib.Path(__file__).resolve().parent.parent


def copy_repository(copy):
    """The crates without what checks made of them: a first check looks at the sources before it builds or proves anything."""
    shutil.copy(REPOSITORY / 'crates.txt', copy)
    shutil.copytree(REPOSITORY / 'crates', copy / 'crates', ignore=shutil.ignore_patterns('out'))


def errors_of(edit, copy):
    """The error that must be met, and those that the compiler has for the copy with this edit."""
    fields = dict(line.split(': ', 1) for line in edit.read_text().splitlines())
    path = pathlib.Path(os.path.normpath(edit.parent.parent / fields['file'])).relative_to(REPOSITORY)
    text = (copy / path).read_text()
    if text.count(fields['old']) != 1:
        return fields['error'], ['the old text does not stand once in ' + str(path)]
    (copy / path).write_text(text.replace(fields['old'], fields['new']))
    run = subprocess.run(['rt', 'check'], cwd=copy / 'crates' / path.parts[1], capture_output=True, text=True)
    (copy / path).write_text(text)
    return fields['error'], re.findall(r'^src/.*: error\[([\w-]+)\]', run.stdout + run.stderr, re.MULTILINE)


def main():
    edits = sorted(REPOSITORY.glob('crates/*/compile-fail/*.edit'))
    failed = 0
    with tempfile.TemporaryDirectory() as folder:
        copy = pathlib.Path(folder)
        copy_repository(copy)
        for edit in edits:
            wanted, met = errors_of(edit, copy)
            failed += met != [wanted]
            print('refused' if met == [wanted] else 'NOT REFUSED AS WANTED', edit.relative_to(REPOSITORY), wanted, met)
    print(f'{len(edits) - failed} passed, {failed} failed')
    sys.exit(failed != 0)


main()
