"""Measures how long a message takes from one thread to another, over a link and in plain Rust.

    tools/bench links [--program PATH] [ROUNDS [RUNS]]

--program is the built program of the cases (crates/test_transcript/out/test_transcript). It drives that and tools/plain_links, which it has rustc compile: by turns, ROUNDS times (5), each time RUNS
times (20, at least 2) the 100,001 messages of a link, at capacities of 1, 16 and 1,024. It prints the least time a message of each, in nanoseconds. Each message is looked at as it comes.

    tools/bench links [--program PATH] --soak MILLIONS

sends so many million messages over the ring in all, in four equal parts at capacities of 1, 2, 16 and 1,024, and reports the minutes. Status 1 where a message isn't the one that was put.
"""
import argparse, os, subprocess, sys, tempfile, time

sys.dont_write_bytecode = True
import built

TOP = os.path.dirname(os.path.dirname(os.path.dirname(os.path.realpath(__file__))))
MESSAGES = 100001

def link(rows, form, capacity, runs):
    """The nanoseconds a message over a link of this form: what the line of a case tells behind its echo."""
    line = '& %s %d waits %d %d\n' % (form, capacity, MESSAGES - 1, runs)
    told = subprocess.run([rows], input=line.encode(), stdout=subprocess.PIPE, check=True).stdout.decode()
    parts = told[len(line):].split()
    if len(parts) != 5 or parts[0] != '=' or int(parts[1]) != MESSAGES * runs:
        sys.exit(told or 'nothing')
    return int(parts[3]) / int(parts[1])

def plain(program, capacity, runs):
    """The nanoseconds a message in plain Rust."""
    told = subprocess.run([program, str(capacity), str(runs)], stdout=subprocess.PIPE, check=True).stdout.decode()
    if not told.endswith(': true\n'):
        sys.exit(told or 'nothing')
    parts = told.split()
    return int(parts[2]) / int(parts[0])

def compiled(folder):
    subprocess.run(['rustc', '-O', TOP + '/tools/benches/plain_links/main.rs', '-o', folder + '/plain_links'], check=True)
    return folder + '/plain_links'

def measure(rows, rounds, runs):
    with tempfile.TemporaryDirectory() as folder:
        program = compiled(folder)
        print('capacity  ring  channel  sync_channel  sync_channel / ring')
        for capacity in (1, 16, 1024):
            times = [(link(rows, 'ring', capacity, runs), link(rows, 'channel', capacity, runs), plain(program, capacity, runs)) for _ in range(rounds)]
            best = [min(way) for way in zip(*times)]
            print('%8d %5.1f %8.1f %13.1f %20.1f' % (capacity, best[0], best[1], best[2], best[2] / best[0]), flush=True)

def soak(rows, millions):
    begun, parts = time.time(), (1, 2, 16, 1024)
    runs = -(-millions * 1000000 // (MESSAGES * len(parts)))
    for capacity in parts:
        each = link(rows, 'ring', capacity, runs)
        print('capacity %d: %d messages, each the one that was put, %.1f ns each' % (capacity, runs * MESSAGES, each), flush=True)
    print('%d messages in %.1f minutes' % (len(parts) * runs * MESSAGES, (time.time() - begun) / 60))

def main():
    words = argparse.ArgumentParser(usage=__doc__)
    words.add_argument('--program', default=built.ROWS)
    words.add_argument('--soak', type=int)
    words.add_argument('rounds', type=int, nargs='?', default=5)
    words.add_argument('runs', type=int, nargs='?', default=20)
    given = words.parse_args()
    rows = built.program(given.program, built.ROWS)
    if given.soak is not None:
        soak(rows, given.soak)
    else:
        measure(rows, given.rounds, given.runs)

main()
