"""The built programs that tools drive: where they lie, and what builds them. A tool takes another one by --program PATH."""
import os, sys

TOP = os.path.dirname(os.path.dirname(os.path.realpath(__file__)))
LUSDIST = TOP + '/crates/lusdist/out/lusdist'
ROWS = TOP + '/crates/test_transcript/out/test_transcript'
MADE_BY = {LUSDIST: '`./lusdist --build` at the top', ROWS: '`./lusdist --build` at the top and then `rt run` in crates/test_transcript'}

def program(path, usual=LUSDIST):
    """The whole path of a program. Where none is there, one line on the error stream says how the usual one is built, and the status is 2."""
    if os.path.isfile(path) and os.access(path, os.X_OK):
        return os.path.abspath(path)
    print('no program at %s: build it by %s (about an hour), or name one by --program PATH' % (path, MADE_BY[usual]), file=sys.stderr)
    sys.exit(2)
