"""Times job lines of the six sets by our program, the Rust crate and OpenSSL, one after the other on
one processor, and prints the rows of PERFORMANCE.md: processor time of a job by us, and its ratio to
the others' times; last the ratio of an audit to signing. Arguments: our program, a program of the Rust
crate that answers the same lines, OpenSSL 3.5 or later, and names of sets, if not all."""
import datetime
import os
import re
import resource
import subprocess
import sys

TURNS = 4
SETS = {"128s": 16, "128f": 16, "192s": 24, "192f": 24, "256s": 32, "256f": 32}
# so many lines of a command, for sets that end in s and in f
COUNTS = {"keygen": {"s": 8, "f": 200}, "sign": {"s": 3, "f": 20}, "verify": {"s": 400, "f": 200}}


def answers(program, lines):
    """The replies to lines, and the processor time of each."""
    before = resource.getrusage(resource.RUSAGE_CHILDREN)
    with subprocess.Popen([program], stdin=subprocess.PIPE, stdout=subprocess.PIPE) as process:
        replies, _ = process.communicate("".join(line + "\n" for line in lines).encode())
    after = resource.getrusage(resource.RUSAGE_CHILDREN)
    spent = after.ru_utime + after.ru_stime - before.ru_utime - before.ru_stime
    if process.returncode != 0:
        sys.exit(f"{program}: status {process.returncode}")
    return replies.decode().splitlines(), spent


def times(programs, lines):
    """The least time of a line by each program, which take turns, and the replies of the first."""
    least, first = [float("inf")] * len(programs), None
    for _ in range(TURNS):
        for i, program in enumerate(programs):
            replies, spent = answers(program, lines)
            least[i] = min(least[i], spent / len(lines))
            first = first or replies
            if replies != first:
                sys.exit(f"{program} has other replies")
    return least, first


def openssl_times(openssl, name):
    """The times of a key, a signature and a verification by `openssl speed`, the least of its turns."""
    least = [float("inf")] * 3
    for _ in range(TURNS - 1):
        text = subprocess.run([openssl, "speed", "-seconds", "1", name], capture_output=True,
                              text=True, check=True).stdout
        row = re.findall(r"([0-9.]+)s", text.splitlines()[-1].split(name)[1])
        least = [min(pair) for pair in zip(least, map(float, row))]
    return least


def audit_ratio(ours, signing, audit):
    """What auditing takes of signing, which take turns: the processor's clock isn't steady."""
    least = [float("inf")] * 2
    for _ in range(TURNS):
        for i, lines in enumerate([signing, audit]):
            replies, spent = answers(ours, lines)
            least[i] = min(least[i], spent)
    if set(replies) != {"genuine"}:
        sys.exit("a signature is foreign")
    return least[1] / least[0]


def row(ours, rust, openssl, name, n):
    """A row of the table for a set whose values have n bytes."""
    kind = name[-1]
    digits = 2 * n
    keygen = [f"{name} keygen {i:0{digits}d} {2:0{digits}d} {3:0{digits}d}"
              for i in range(1, COUNTS["keygen"][kind] + 1)]
    made, keys = times([ours, rust], keygen)
    _, key, vk = keys[0].split()
    messages = [f"{i:08d}" for i in range(COUNTS["sign"][kind])]
    signing = [f"{name} sign {key} - {m} none" for m in messages]
    signed, replies = times([ours, rust], signing)
    verify = [f"{name} verify {vk} - {m} {reply.split()[1]}" for m, reply in zip(messages, replies)]
    verified, verdicts = times([ours, rust], (verify * COUNTS["verify"][kind])[:COUNTS["verify"][kind]])
    if set(verdicts) != {"accepted"}:
        sys.exit(f"a signature of {name} is refused")
    audit = [f"{name} audit {key} - {m} {reply.split()[1]}" for m, reply in zip(messages, replies)]
    audited = audit_ratio(ours, signing, audit)
    _, other_sign, other_verify = openssl_times(openssl, name)
    cells = [name, f"{made[0] * 1000:.3g} ms", f"{made[0] / made[1]:.2f}",
             f"{signed[0] * 1000:.3g} ms", f"{signed[0] / signed[1]:.2f}", f"{signed[0] / other_sign:.2f}",
             f"{verified[0] * 1000:.3g} ms", f"{verified[0] / verified[1]:.2f}",
             f"{verified[0] / other_verify:.2f}", f"{audited:.2f}"]
    return "| " + " | ".join(cells) + " |"


def main():
    ours, rust, openssl = sys.argv[1:4]
    os.sched_setaffinity(0, {max(os.sched_getaffinity(0))})
    cpu = open("/proc/cpuinfo", encoding="utf-8").read()
    has = [flag for flag in ("avx2", "avx512f", "sha_ni") if re.search(rf"\b{flag}\b", cpu)]
    print("machine:", re.search(r"model name\s*: (.*)", cpu)[1], "with", ", ".join(has) or "none of its kind")
    print("date:", datetime.date.today(), "load before:", os.getloadavg()[0])
    for short, n in SETS.items():
        name = "SLH-DSA-SHA2-" + short
        if len(sys.argv) == 4 or name in sys.argv[4:]:
            print(row(ours, rust, openssl, name, n), flush=True)
    print("load after:", os.getloadavg()[0])


main()
