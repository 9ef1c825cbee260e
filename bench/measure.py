"""The measurements of bench/run: processor time, speed, peak memory, and growth where the input doubles."""
import os
import subprocess
import sys
import tempfile

MEGABYTE = 1 << 20


def functions_text(size):
    """Many small functions in a chain of calls, about `size` bytes; main calls the first one."""
    parts = ["gimple 1;\n"]
    held = 0
    number = 0
    while held < size:
        part = (
            f"i32 f{number} (i32 a, i32 b) {{\n  i32 t;\n  i32 u;\n  <bb 2>:\n    t = a + {number % 16};\n"
            f"    if (b <= 0) goto <bb 4>; else goto <bb 3>;\n  <bb 3>:\n    b = b - 1;\n    u = f{number // 2} (t, b);\n"
            f"    t = t - u;\n    goto <bb 4>;\n  <bb 4>:\n    return t;\n}}\n"
        )
        parts.append(part)
        held += len(part)
        number += 1
    parts.append(f"i32 main () {{\n  i32 r;\n  <bb 2>:\n    r = f{number - 1} (1, 3);\n    putint (r);\n    return 0;\n}}\n")
    return "".join(parts)


def statements_text(size):
    """One function of one block, about `size` bytes."""
    line = "    x = x + y;\n    y = x - 7;\n"
    return (
        "gimple 1;\ni32 main () {\n  i32 x;\n  i32 y;\n  <bb 2>:\n" + line * (size // len(line)) + "    putint (x);\n    return 0;\n}\n"
    )


def blocks_text(size):
    """One function of many blocks, about `size` bytes."""
    parts = ["gimple 1;\ni32 main () {\n  i32 x;\n  <bb 0>:\n    goto <bb 1>;\n"]
    held = 0
    label = 1
    while held < size:
        part = f"  <bb {label}>:\n    x = x + 1;\n    if (x < 9) goto <bb {label - 1}>; else goto <bb {label + 1}>;\n"
        parts.append(part)
        held += len(part)
        label += 1
    parts.append(f"  <bb {label}>:\n    return 0;\n}}\n")
    return "".join(parts)


def function_text(name, callee, number):
    """A function that calls another one and adds a number to what it gives."""
    return f"i32 {name} (i32 n) {{\n  i32 x;\n  <bb 2>:\n    x = {callee} (n);\n    x = x + {number};\n    return x;\n}}\n"


def main_text(names):
    """A main that calls each of these functions."""
    return "i32 main () {\n  i32 r;\n  <bb 2>:\n" + "".join(f"    r = {name} (1);\n" for name in names) + "    return 0;\n}\n"


def chain_text(count, step):
    """Functions in a chain, each of which calls the next one (step 1) or the one before (step -1); the last one differs."""
    last = count - 1 if step == 1 else 0
    parts = [function_text(f"f{i}", f"f{i if i == last else i + step}", 1 if i == last else 0) for i in range(count)]
    return "gimple 1;\n" + "".join(parts) + main_text(["f0" if step == 1 else f"f{count - 1}"])


def cycle_text(count):
    """Functions in one cycle of calls, which are all one."""
    return "gimple 1;\n" + "".join(function_text(f"f{i}", f"f{(i + 1) % count}", 0) for i in range(count)) + main_text(["f0"])


def empty_text(count):
    """Functions that do nothing, which are all one."""
    parts = [f"void f{i} () {{\n  <bb 2>:\n    return;\n}}\n" for i in range(count)]
    calls = "".join(f"    f{i} ();\n" for i in range(count))
    return "gimple 1;\n" + "".join(parts) + "i32 main () {\n  <bb 2>:\n" + calls + "    return 0;\n}\n"


def long_pair_text(count):
    """Two functions that differ in the last of many statements."""
    body = "    n = n + 1;\n" * count
    parts = [f"i32 f{i} (i32 n) {{\n  <bb 2>:\n{body}    n = n + {i};\n    return n;\n}}\n" for i in range(2)]
    return "gimple 1;\n" + "".join(parts) + main_text(["f0", "f1"])


LOOP = """gimple 1;
i32 main () {
  i32 x;
  i32 y;
  <bb 2>:
    x = x + 1;
    y = y - x;
    y = y + x;
    goto <bb 2>;
}
"""

CALLS = """gimple 1;
i32 f (i32 n) {
  i32 x;
  <bb 2>:
    x = n + 1;
    return x;
}
i32 main () {
  i32 x;
  <bb 2>:
    x = f (x);
    x = x - 1;
    goto <bb 2>;
}
"""


def memory_text(length):
    return f"""gimple 1;
global i32 g[{length}];
i32 main () {{
  ptr p;
  ptr q;
  i32 x;
  <bb 2>:
    p = &g;
    q = &g@{4 * (length - 1)};
    goto <bb 3>;
  <bb 3>:
    x = MEM <i32> [p];
    x = x + 1;
    MEM <i32> [p] = x;
    p = p + 4;
    if (p == q) goto <bb 2>; else goto <bb 3>;
}}
"""


def registers_text(count):
    """A loop over the last registers of a function that has many."""
    declared = "".join(f"  i32 r{i};\n" for i in range(count))
    last, other = f"r{count - 1}", f"r{count - 2}"
    return f"""gimple 1;
i32 main () {{
{declared}  <bb 2>:
    {last} = {last} + 1;
    {other} = {other} - {last};
    {other} = {other} + {last};
    goto <bb 2>;
}}
"""


def wide_text(count):
    """One function of so many blocks and registers, in which each block counts a register of its own in a loop."""
    registers = "".join(f"  i32 r{number};\n" for number in range(count))
    blocks = "".join(
        f"  <bb {label}>:\n    r{label} = r{label} + 1;\n    if (r{label} < 9) goto <bb {label}>; else goto <bb {label + 1}>;\n"
        for label in range(1, count - 1)
    )
    return f"gimple 1;\ni32 main () {{\n{registers}  <bb 0>:\n    goto <bb 1>;\n{blocks}  <bb {count - 1}>:\n    return 0;\n}}\n"


def switch_text(count):
    """One function with a block of so many statements and a switch of so many cases, each of which leads to a block of its own."""
    cases = "".join(f"case {number}: <bb {number + 2}>; " for number in range(count))
    blocks = "".join(f"  <bb {number + 2}>:\n    return {number};\n" for number in range(count))
    body = "    y = y + x;\n" * count
    return f"gimple 1;\ni32 main () {{\n  i64 x;\n  i64 y;\n  <bb 0>:\n    x = getint ();\n{body}    switch (x) {{ {cases}default: <bb 1>; }}\n  <bb 1>:\n    return 0;\n{blocks}}}\n"


def measured(words):
    """Runs a command: seconds of processor time, peak memory in MB, status."""
    child = os.fork()
    if child == 0:
        null = os.open(os.devnull, os.O_WRONLY)
        os.dup2(null, 1)
        os.execv(words[0], words)
    _, status, usage = os.wait4(child, 0)
    return usage.ru_utime + usage.ru_stime, usage.ru_maxrss / 1024, os.waitstatus_to_exitcode(status)


def row(name, amount, unit, seconds, peak, before):
    growth = f"{seconds / before:5.2f}" if before else "    -"
    print(f"{name:42} {seconds:8.2f} s {amount / seconds:12.1f} {unit:12} {peak:8.0f} MB {growth}", flush=True)


def texts(tool, folder, sizes):
    for name, make in (("functions", functions_text), ("statements", statements_text), ("blocks", blocks_text)):
        before = 0
        for megabytes in sizes:
            path = os.path.join(folder, "a.g")
            text = make(megabytes * MEGABYTE - 4096)
            with open(path, "w", encoding="ascii") as file:
                file.write(text)
            seconds, peak, status = measured([tool, path, "-o", os.path.join(folder, "b.g")])
            assert status == 0, (name, megabytes, status)
            row(f"{name}, {megabytes} MB", len(text) / MEGABYTE, "MB/s", seconds, peak, before)
            before = seconds


def generated(tool, folder, counts):
    """Generated programs: written, read and written again, folded, and with constants propagated."""
    path, output = os.path.join(folder, "a.g"), os.path.join(folder, "b.g")
    kinds = (
        ("made", lambda count: [f"--generate={count}", "-O0", "-o", path]),
        ("read", lambda count: [path, "-O0", "-o", output]),
        ("folded", lambda count: [f"--generate={count}", "-O0", "-fipa-icf", "-o", output]),
        ("propagated", lambda count: [f"--generate={count}", "-O2", "-fno-ipa-icf", "-o", output]),
    )
    before = {}
    for count in counts:
        for kind, words in kinds:
            seconds, peak, status = measured([tool, *words(count)])
            assert status == 0, (count, kind, status)
            row(f"generated, {count}, {kind}", count, "functions/s", seconds, peak, before.get(kind))
            before[kind] = seconds


def folding(tool, folder, counts):
    """Programs that are hard to fold, without folding and with it."""
    path, output = os.path.join(folder, "a.g"), os.path.join(folder, "b.g")
    kinds = (
        ("a chain, the last differs", lambda count: chain_text(count, 1)),
        ("a chain, the first differs", lambda count: chain_text(count, -1)),
        ("one cycle", cycle_text),
        ("empty functions", empty_text),
        ("two long functions", long_pair_text),
    )
    for name, make in kinds:
        before = {}
        for count in counts:
            with open(path, "w", encoding="ascii") as file:
                file.write(make(count))
            for level in ("", ", folded"):
                words = ["-fipa-icf"] if level else []
                seconds, peak, status = measured([tool, path, *words, "-o", output])
                assert status == 0, (name, count, status)
                row(f"{name}, {count}{level}", count, "parts/s", seconds, peak, before.get(level))
                before[level] = seconds


def runs(tool, folder, turns):
    programs = (
        ("loop", LOOP),
        ("16 registers", registers_text(16)),
        ("4096 registers", registers_text(4096)),
        ("calls", CALLS),
        ("memory, 16 slots", memory_text(16)),
        ("memory, 65536 slots", memory_text(65536)),
    )
    for name, text in programs:
        before = 0
        for count in turns:
            path = os.path.join(folder, "a.g")
            with open(path, "w", encoding="ascii") as file:
                file.write(text)
            seconds, peak, status = measured([tool, f"--turns={count}", path])
            assert status == 0, (name, status)
            row(f"{name}, {count} transfers", count, "transfers/s", seconds, peak, before)
            before = seconds


def growing(tool, kinds, counts, what):
    """A program that takes a kind and a count, for each kind and with the count growing."""
    for kind in kinds:
        before = 0
        for count in counts:
            seconds, peak, status = measured([tool, kind, str(count)])
            assert status == 0, (kind, status)
            row(f"{kind}, {count} {what}", count, f"{what}/s", seconds, peak, before)
            before = seconds


def bodies(tool, folder, counts):
    """The values of a function's registers at each of its points."""
    path = os.path.join(folder, "a.g")
    for name, make in (("blocks and registers", wide_text), ("statements and cases", switch_text)):
        before = 0
        for count in counts:
            with open(path, "w", encoding="ascii") as file:
                file.write(make(count))
            seconds, peak, status = measured([tool, "order", path])
            assert status == 0, (name, status)
            row(f"{count} {name}", count, "blocks/s", seconds, peak, before)
            before = seconds


def proved(top, name):
    """The path of a proved program, which is proved and built first where it is not."""
    done = subprocess.run([os.path.join(top, "bin", "built"), "--prove", name], stdout=subprocess.PIPE, text=True, check=True)
    return done.stdout.strip()


def main():
    top, words = sys.argv[1], sys.argv[2:]
    quick = "--quick" in words
    tools = [word for word in words if word != "--quick"]
    optimiser = tools[0] if tools else proved(top, "gimple-ipa")
    runner = tools[1] if len(tools) > 1 else proved(top, "gimple-run")
    engine = tools[2] if len(tools) > 2 else os.path.join(top, "crates", "bench_engine", "out", "bench_engine")
    operators = tools[3] if len(tools) > 3 else os.path.join(top, "crates", "bench_values", "out", "bench_values")
    values = tools[4] if len(tools) > 4 else os.path.join(top, "crates", "bench_bodies", "out", "bench_bodies")
    print(f"{os.cpu_count()} processors")
    print(f"{'what':42} {'time':>10} {'speed':>25} {'peak':>11} growth")
    with tempfile.TemporaryDirectory() as folder:
        texts(optimiser, folder, (1, 2) if quick else (4, 8, 16))
        generated(optimiser, folder, (256, 512) if quick else (4096, 8192, 16384, 32768, 65536))
        folding(optimiser, folder, (256, 512) if quick else (25000, 50000, 100000))
        if os.path.exists(runner):
            runs(runner, folder, (100000, 200000) if quick else (1000000, 2000000))
        if os.path.exists(engine):
            counts = (5000, 10000) if quick else (25000, 50000, 100000)
            growing(engine, ("chain", "reversed", "random"), counts, "nodes")
        if os.path.exists(operators):
            counts = (1000000, 2000000) if quick else (10000000, 20000000)
            growing(operators, ("constants", "intervals", "any"), counts, "rounds")
        if os.path.exists(values):
            bodies(values, folder, (250, 500) if quick else (1000, 2000, 4000))


main()
