"""Measures the built program by whole commands, over programs and tables that it makes.

    tools/bench eval [FLOWS] [INSTANTS]           evaluation: ns a flow and instant
    tools/bench sites [FLOWS] [INSTANTS]          a replay at 1, 4 and 16 sites: ns an item, a turn that moves, beside the evaluation of the same program
    tools/bench tables [LINES] [COLUMNS]          reading a table, and reading and writing one
    tools/bench plan [VARIABLES] [SITES]          reading, checking and planning a program, beside checking alone
    tools/bench counters [INSTANTS]               two counters that feed each other: time and memory of a whole replay, and of a run by a thread each and by one worker
    tools/bench worst [NAME ..]                   the texts of tools/worst: time and memory of a check, or of a plan

--program PATH is the built program (crates/lusdist/out/lusdist), --runs N of how many runs the best is taken (5). Each time is the difference of two calls
that differ in instants alone, so that starting, reading the program and flattening it aren't counted; where a call is reported as a whole, that is said.
`valgrind --tool=callgrind` over the same calls counts instructions, which stay the same whatever the machine is doing: --instructions. With --all `eval` prints all main
variables, and so goes instant by instant.
"""
import argparse, os, re, resource, subprocess, sys, tempfile, time

sys.dont_write_bytecode = True
import built

TOP = os.path.dirname(os.path.dirname(os.path.dirname(os.path.realpath(__file__))))

# A node of all forms, about half of whose flows stand on slow clocks. All numbers stay below 100,000, whatever the input.
STAGE = '''node stage(x: int; c: bool) returns (y: int; d: bool);
var
  n, m, held: int;
  k: bool;
  s, t, u: int when k;
  up: bool when k;
  r, least: int when not k;
  low: bool when not k;
let
  n = 0 -> (pre n + 1) mod 1000;
  m = 0 -> if c then pre m else (pre m + x) mod 1009;
  k = true -> not (c and x > n);
  s = (x when k) + (n when k);
  t = 0 -> (pre t + s) mod 10007;
  up = true -> t > pre t or not pre up;
  u = if up then t - s else s - t;
  r = ((x when not k) - (0 -> pre r)) mod 997;
  least = r -> if r < pre least then r else pre least;
  low = r = least or (c when not k);
  held = current u;
  y = (merge k (true -> u) (false -> if low then least else r) + held - m) mod 1009;
  d = not c and held > n;
tel
'''
FLOWS_OF_STAGE = 68

def stages(flows):
    return max(1, flows // FLOWS_OF_STAGE)

def chain(flows):
    """Stages of about so many flows, one after another."""
    count = stages(flows)
    text = STAGE + 'node main(x: int; c: bool) returns (y: int; d: bool);\nvar y0: int; d0: bool;\n'
    text += ''.join('  y%d: int; d%d: bool;\n' % (i, i) for i in range(1, count + 1)) + 'let\n  y0 = x mod 1009;\n  d0 = c;\n'
    text += ''.join('  (y%d, d%d) = stage(y%d, d%d);\n' % (i + 1, i + 1, i, i) for i in range(count))
    return text + '  y = y%d;\n  d = d%d;\ntel\n' % (count, count)

def chain_table(instants):
    number = lambda i: i * 2654435761 % 1000
    return 'x,c\n' + ''.join('%d,%s\n' % (number(i), 'true' if number(i) % 3 == 0 else 'false') for i in range(instants))

def chain_place(flows, sites):
    count = stages(flows)
    at = lambda i: i * sites // count
    text = 'sites = [%s]\n\n[place]\nx = "s0"\nc = "s0"\ny0 = "s0"\nd0 = "s0"\n' % ', '.join('"s%d"' % s for s in range(sites))
    text += ''.join('y%d = "s%d"\nd%d = "s%d"\n' % (i + 1, at(i), i + 1, at(i)) for i in range(count))
    return text + 'y = "s%d"\nd = "s%d"\n' % (at(count - 1), at(count - 1))

class Bench:
    def __init__(self, program, runs, folder, instructions, flags):
        self.program, self.runs, self.folder, self.instructions, self.flags = program, runs, folder, instructions, flags

    def put(self, name, text):
        with open(os.path.join(self.folder, name), 'w') as file:
            file.write(text)

    def once(self, words, out=subprocess.DEVNULL):
        begin = time.perf_counter()
        ran = subprocess.run([self.program, *words], cwd=self.folder, stdout=out, stderr=subprocess.PIPE)
        seconds = time.perf_counter() - begin
        if ran.returncode != 0:
            sys.exit('%s: status %d, %s' % (' '.join(words), ran.returncode, ran.stderr.decode()[:200]))
        return seconds, ran

    def best(self, *words):
        """The least seconds of several calls."""
        return min(self.once(words)[0] for _ in range(self.runs))

    def between(self, few, many):
        """The least seconds by which one call takes longer than another."""
        low = self.best(*few)
        return self.best(*many) - low

    def count(self, *words):
        """How many instructions a call takes."""
        ran = subprocess.run(['valgrind', '--tool=callgrind', '--callgrind-out-file=/dev/null', self.program, *words], cwd=self.folder, stdout=subprocess.DEVNULL,
                             stderr=subprocess.PIPE, text=True)
        return int(re.search(r'Collected : (\d+)', ran.stderr)[1])

    def memory(self, *words):
        """Seconds and the most memory of a call, in MB, and how much it printed."""
        code = 'import subprocess, resource, sys, time; b = time.perf_counter(); r = subprocess.run(sys.argv[1:], stdout=open("printed", "wb"), stderr=subprocess.PIPE);' \
               'print(time.perf_counter() - b, resource.getrusage(resource.RUSAGE_CHILDREN).ru_maxrss, r.returncode, r.stderr.decode()[:40].strip())'
        ran = subprocess.run([sys.executable, '-c', code, self.program, *words], cwd=self.folder, capture_output=True, text=True)
        seconds, size, status, told = ran.stdout.rstrip('\n').split(' ', 3)
        return float(seconds), int(size) / 1024, os.path.getsize(os.path.join(self.folder, 'printed')) / 1e6, told or 'status ' + status

    def has_ended(self, words):
        """Whether all sites of a replay have ended."""
        lines = self.once(words, subprocess.PIPE)[1].stdout.decode().splitlines()
        return all(line.endswith(' ended') for line in lines if line.startswith('site '))

    def flows(self, main='p.lus'):
        self.put('one.toml', 'sites = ["A"]\ndefault = "A"\n')
        text = subprocess.run([self.program, 'plan', main, 'one.toml', '--text'], cwd=self.folder, capture_output=True, text=True).stdout
        return int(text.split('\n')[1].split()[1])

def evaluation(bench, flows, instants):
    bench.put('p.lus', chain(flows))
    bench.put('few.csv', chain_table(instants // 10))
    bench.put('many.csv', chain_table(instants))
    count, more = bench.flows(), instants - instants // 10
    call = lambda name: ['eval', 'p.lus', name + '.csv', *bench.flags]
    each = bench.between(call('few'), call('many')) * 1e9 / more / count
    told = '%d flows, %d instants: %.1f ns a flow and instant' % (count, instants, each)
    if bench.instructions:
        told += ', %.0f instructions' % ((bench.count(*call('many')) - bench.count(*call('few'))) / more / count)
    print(told, flush=True)

def sites(bench, flows, instants):
    evaluation(bench, flows, instants)
    few, trial = instants // 10, 20
    for name, n in (('few', few), ('many', instants), ('trial', trial)):
        bench.put(name + '.csv', chain_table(n))
    for count in (1, 4, 16):
        bench.put('p.toml', chain_place(flows, count))
        call = lambda name: ['replay', 'p.lus', 'p.toml', name + '.csv', name + '.txt']
        # turns of each site in bursts, round after round; how many items an instant has is counted at a few instants
        rounds = lambda burst, n: ''.join(('%x' % s) * burst for s in range(count)) * n
        bench.put('trial.txt', rounds(2 * flows // count + 40, trial + 2 * count))
        each = len(bench.once(call('trial') + ['--trace'])[1].stderr.splitlines()) / trial
        burst = round(each / stages(flows) * -(-stages(flows) // count) * 1.02) + 5
        for name, n in (('few', few), ('many', instants)):
            bench.put(name + '.txt', rounds(burst, n + 2 * count))
        if not bench.has_ended(call('many')):
            print('%2d sites: the bursts are too short' % count)
            continue
        items = each * (instants - few)
        told = '%2d sites: %.1f ns an item, %.0f items and %d turns an instant' % (count, bench.between(call('few'), call('many')) * 1e9 / items, each, burst * count)
        if bench.instructions:
            told += ', %.0f instructions an item' % ((bench.count(*call('many')) - bench.count(*call('few'))) / items)
        print(told, flush=True)

def tables(bench, lines, columns):
    names = ['c%d' % i for i in range(columns)]
    number = lambda line, column: (10000000 + (line * 2654435761 + column * 40503) % 99989999999) * (1 if (line + column) % 2 else -1)
    bench.put('t.csv', ','.join(names) + '\n' + ''.join(','.join(str(number(i, k)) for k in range(columns)) + '\n' for i in range(lines)))
    size = os.path.getsize(os.path.join(bench.folder, 't.csv')) / 1e6
    declared = '; '.join(n + ': int' for n in names)
    bench.put('one.lus', 'node main(%s) returns (y: bool);\nlet\n  y = true;\ntel\n' % declared)
    bench.put('all.lus', 'node main(%s) returns (%s);\nlet\n%stel\n' % (declared, '; '.join('y%d: int' % k for k in range(columns)), ''.join('  y%d = c%d;\n' % (k, k) for k in range(columns))))
    read, both = bench.best('eval', 'one.lus', 't.csv'), bench.best('eval', 'all.lus', 't.csv')
    print('%.1f MB: read %.0f MB a second (whole calls), read and written %.0f MB a second' % (size, size / read, size / both))

def planning(bench, variables, count):
    bench.put('p.lus', 'node main(x: int) returns (v0: int);\nvar\n%slet\n  v0 = x + 1;\n%stel\n' % (
        ''.join('  v%d: int;\n' % i for i in range(1, variables)), ''.join('  v%d = v%d + 1;\n' % (i, i - 1) for i in range(1, variables))))
    bench.put('p.toml', 'sites = [%s]\n\n[place]\nx = "s0"\n%s' % (', '.join('"s%d"' % s for s in range(count)), ''.join('v%d = "s%d"\n' % (i, i % count) for i in range(variables))))
    print('%d variables, %d sites: check %.1f ms, plan %.1f ms (whole calls)' % (variables, count, bench.best('check', 'p.lus') * 1e3, bench.best('plan', 'p.lus', 'p.toml') * 1e3))

def counters(bench, instants):
    where = TOP + '/examples/two_counters/'
    bench.put('t.csv', '\n' * (instants + 1))
    bench.put('s.txt', '01' * (14 * instants + 20))
    seconds, size, printed, told = bench.memory('replay', where + 'program.lus', where + 'placement.toml', 't.csv', 's.txt')
    print('replay of %d instants, %d turns: %.2f s, %.0f MB, %.1f MB printed (%s)' % (instants, 28 * instants + 40, seconds, size, printed, told))
    for name, flags in ('a thread each', []), ('--workers auto, which is one', ['--workers', 'auto']):
        seconds, size, printed, told = bench.memory('run', where + 'program.lus', where + 'placement.toml', 't.csv', *flags)
        print('run of %d instants, %s: %.2f s, %.0f MB, %.1f MB printed (%s)' % (instants, name, seconds, size, printed, told))

def worst(bench, names):
    made = lambda name: subprocess.run([TOP + '/tools/worst', name], capture_output=True, text=True, check=True).stdout
    usual = ['plain', 'prefixes', 'variables', 'currents', 'flows', 'shared', 'types', 'deep', 'calls', 'tuples', 'chain', 'everywhere', 'fields', 'turns']
    for name in names or usual:
        bench.put('p.lus', made({'fields': 'column', 'turns': 'column'}.get(name, name)))
        words = ['check', 'p.lus']
        if name in ('links', 'everywhere'):
            bench.put('p.toml', made({'links': 'sites', 'everywhere': 'all_sites'}[name]))
            words = ['plan', 'p.lus', 'p.toml']
        elif name == 'fields':
            bench.put('t.csv', made(name))
            words = ['eval', 'p.lus', 't.csv']
        elif name == 'turns':
            bench.put('p.toml', 'sites = ["A", "B"]\ndefault = "A"\n')
            bench.put('t.csv', made('fields')[:10000].rsplit('\n', 1)[0] + '\n')
            bench.put('s.txt', made(name))
            words = ['replay', 'p.lus', 'p.toml', 't.csv', 's.txt']
        seconds, size, printed, told = min(bench.memory(*words) for _ in range(3))
        print('%-10s %.2f s, %.0f MB, %.1f MB printed (%s)' % (name, seconds, size, printed, told), flush=True)

TASKS = {'eval': (evaluation, [1000, 20000]), 'sites': (sites, [1000, 1000]), 'tables': (tables, [1000000, 5]), 'plan': (planning, [2000, 16]), 'counters': (counters, [1000000])}

def main():
    words = argparse.ArgumentParser(usage=__doc__)
    words.add_argument('task', choices=[*TASKS, 'worst'])
    words.add_argument('sizes', nargs='*')
    words.add_argument('--program', default=built.LUSDIST)
    words.add_argument('--runs', type=int, default=5)
    words.add_argument('--instructions', action='store_true')
    words.add_argument('--all', action='store_true')
    given = words.parse_args()
    program = built.program(given.program)
    with tempfile.TemporaryDirectory() as folder:
        bench = Bench(program, given.runs, folder, given.instructions, ['--all'] if given.all else [])
        if given.task == 'worst':
            return worst(bench, given.sizes)
        task, usual = TASKS[given.task]
        sizes = [int(w) for w in given.sizes]
        task(bench, *sizes, *usual[len(sizes):])

sys.exit(main())
