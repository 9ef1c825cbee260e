"""Texts of 16 MB that are no programs, each with the one message that it must get. Prints a line for each, with its time and peak memory.

Usage: python3 bench/hostile.py [GIMPLE_IPA]
"""
import os
import resource
import subprocess
import sys
import tempfile
import time

LIMIT = 16777216
SECONDS = 60


def filled(before, part, after=b"", size=LIMIT):
    """The part again and again between two texts, in `size` bytes at most, and how often it stands there."""
    count = (size - len(before) - len(after)) // len(part)
    return before + part * count + after, count


def column_faults():
    """Texts of one line: a name, the text, the column of the fault and its kind."""
    body = b"gimple 1; void f () { <bb 2>: "
    yield "blanks", b" " * LIMIT, LIMIT + 1, "early end"
    yield "zero bytes", b"\0" * LIMIT, 1, "bad byte"
    yield "bytes 255", b"\xff" * LIMIT, 1, "bad byte"
    yield "comment of bytes 255", filled(b"//", b"\xff")[0], LIMIT + 1, "early end"
    yield "carriage returns", filled(b"gimple 1;", b"\r", b"$")[0], LIMIT, "bad byte"
    yield "opening parentheses", filled(b"gimple 1; void f ", b"(")[0], 19, "bad token"
    yield "parentheses in a statement", filled(body + b"x = ", b"(")[0], len(body) + 6, "bad token"
    yield "minus signs", filled(body + b"x = ", b"-")[0], len(body) + 6, "bad token"
    yield "ampersands", filled(body + b"x = ", b"&")[0], len(body) + 6, "bad token"
    yield "one name", filled(b"gimple 1; global i32 ", b"n")[0], LIMIT + 1, "early end"
    yield "one name, then a dollar", filled(b"gimple 1; global i32 ", b"n.", b" $")[0], LIMIT - 1, "bad byte"
    yield "one number", filled(b"gimple ", b"9")[0], 8, "bad token"
    yield "zeros before a 1", filled(b"gimple ", b"0", b"1")[0], LIMIT + 1, "early end"
    text, count = filled(body + b"f (a", b",a", b",)")
    yield "arguments", text, len(body) + 6 + 2 * count, "bad token"
    text, count = filled(b"gimple 1; global i32 g[1] = {0", b",0", b"} }")
    yield "items", text, len(text), "bad token"
    text, count = filled(body + b"x = a", b"+a")
    yield "sums", text, len(body) + 8, "bad token"


def line_faults():
    """Texts of many lines: a name, the text, the line and column of the fault and its kind."""
    yield "line feeds", b"\n" * LIMIT, LIMIT + 1, 1, "early end"
    text, count = filled(b"gimple 1;\nvoid f () {\n<bb 2>:\nswitch (a) {\n", b"case 1: <bb 2>;\n", b"}")
    yield "cases", text, count + 5, 1, "bad token"
    text, count = filled(b"gimple 1;\nvoid f () {\n<bb 2>:\nswitch (a) {\n", b"case 1: <bb 2>;\n", b"default: <bb 2>; case")
    yield "a case after the default", text, count + 5, 18, "bad token"
    text, count = filled(b"gimple 1;\nvoid f () {\n", b"<bb 2>: return;\n")
    yield "blocks", text, count + 3, 1 + (len(text) - 22) % 16, "early end"
    text, count = filled(b"gimple 1;\n", b"void f () {}\n", b"void")
    yield "functions", text, count + 2, 5, "early end"
    text, count = filled(b"gimple 1;\n", b"struct S { i32 a; };\n", b"struct S {}")
    yield "structs", text, count + 2, 12, "early end"
    text, count = filled(b"gimple 1;\nvoid f () {\n", b"i32 x;\n", b"local")
    yield "registers", text, count + 3, 1, "bad token"
    text, count = filled(b"gimple 1;\nvoid f () {\n<bb 2>:\n", b"x = y;\n", b"x y")
    yield "statements", text, count + 4, 3, "bad token"
    text, count = filled(b"gimple 1;\n", b"// gimple 1;\n", b"\xc3\xa9")
    yield "comments", text, count + 2, 1, "bad byte"


def cases():
    """Each text with its message."""
    yield "too long", b"gimple 1;" + b" " * (LIMIT - 8), "a.g: error: too long\n"
    yield "the header and blanks", b"gimple 1;" + b" " * (LIMIT - 9), "a.g: program: error: T03 no main or wrong main\n"
    for name, text, column, kind in column_faults():
        yield name, text, f"a.g:1:{column}: error: {kind}\n"
    for name, text, line, column, kind in line_faults():
        yield name, text, f"a.g:{line}:{column}: error: {kind}\n"


def run(tool, folder, text):
    """Runs the tool on the text: seconds, peak memory in MB, status and message."""
    with open(os.path.join(folder, "a.g"), "wb") as file:
        file.write(text)
    began = time.monotonic()
    with subprocess.Popen([tool, "a.g", "-o", "b.g"], cwd=folder, stdin=subprocess.DEVNULL, stderr=subprocess.PIPE) as child:
        try:
            message = child.communicate(timeout=SECONDS)[1]
        except subprocess.TimeoutExpired:
            child.kill()
            message = b"no end in time"
    peak = resource.getrusage(resource.RUSAGE_CHILDREN).ru_maxrss / 1024
    return time.monotonic() - began, peak, child.returncode, message.decode(errors="replace")


def main():
    built = os.path.join(os.path.dirname(os.path.abspath(__file__)), "..", "bin", "built")
    tool = os.path.abspath(sys.argv[1]) if len(sys.argv) > 1 else subprocess.check_output([built, "--prove", "gimple-ipa"], text=True).strip()
    wrong = 0
    with tempfile.TemporaryDirectory() as folder:
        for name, text, wanted in cases():
            seconds, peak, status, message = run(tool, folder, text)
            good = status == 1 and message == wanted and not os.path.exists(os.path.join(folder, "b.g"))
            wrong += not good
            told = "" if good else f"  status {status}, {message!r} in place of {wanted!r}"
            print(f"{name:28} {seconds:6.2f} s  most memory so far {peak:6.0f} MB  {'ok' if good else 'WRONG'}{told}", flush=True)
    sys.exit(1 if wrong else 0)


main()
