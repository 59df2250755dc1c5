"""Measures `lusdist run` beside `lusdist eval`, and beside the same pipeline as C with a thread for each part.

    tools/bench runs [--feedback] [--rounds N] [--instants N] [--items N] [--program PATH] [--beside PATH] [--keep FOLDER]

The program is a pipeline of 16 stages, some 1,000 flows of which half stand on slow clocks, with three links between neighbours, cut into 1, 2, 4, 8 and 16 equal parts, at
capacities of 1, 16 and 1,024. Each way goes once a round, by turns, over N instants (100,000); a time is that of the whole command less what it takes over a table of no instant, the least
of all rounds (5). Each table has to be that of `eval`. The C has a function for each part, with its memories local, checked as tools/bench c checks (`loop`), a ring without a lock for each link, of
1,024 words, and `gcc -O2`; its loop alone is timed, and its one part as one thread. What runs item by item (--items) is measured over fewer instants (5,000), and `eval` over as many.
`2 of 4 processors` is by `taskset`. What is printed is how many times as fast as `eval` each way is.
With --feedback it is two programs of the same stages whose sites feed each other, at two sites, without C: a ring, in which an instant goes round all stages, and a pair of halves, each of
which reads the other's values of the instant before. Both are timed by two workers and by one, as the call says.
With --beside PATH another build is timed too, each way by turns with that of --program; behind its row stand the other build's seconds, and of how much of these the first takes.
"""
import argparse, os, subprocess, sys, tempfile, time
from importlib.machinery import SourceFileLoader

sys.dont_write_bytecode = True
TOP = os.path.dirname(os.path.dirname(os.path.dirname(os.path.realpath(__file__))))
from benches import c as c_tool
import built

STAGES, PARTS, CAPACITIES = 16, (1, 2, 4, 8, 16), (1, 16, 1024)

# ---- the pipeline ---------------------------------------------------------------------------------------------------------

STAGE = '''  n{g} = 0 -> (pre n{g} + 1) mod 1000;
  m{g} = 0 -> if d{p} then pre m{g} else (pre m{g} + y{p}) mod 1009;
  k{g} = true -> not (d{p} and y{p} > n{g});
  s{g} = (y{p} when k{g}) + (n{g} when k{g});
  t{g} = 0 -> (pre t{g} + s{g}) mod 10007;
  up{g} = true -> t{g} > pre t{g} or not pre up{g};
  u{g} = if up{g} then t{g} - s{g} else s{g} - t{g};
  r{g} = ((e{p} when not k{g}) - (0 -> pre r{g})) mod 997;
  least{g} = r{g} -> if r{g} < pre least{g} then r{g} else pre least{g};
  low{g} = r{g} = least{g} or (d{p} when not k{g});
  held{g} = current u{g};
  y{g} = (merge k{g} (true -> u{g}) (false -> if low{g} then least{g} else r{g}) + held{g} - m{g}) mod 1009;
  d{g} = not d{p} and held{g} > n{g};
  e{g} = (e{p} + held{g}) mod 1013;
'''
LOCALS = ('n{g}, m{g}, held{g}: int; k{g}: bool; s{g}, t{g}, u{g}: int when k{g}; up{g}: bool when k{g}; r{g}, least{g}: int when not k{g}; low{g}: bool when not k{g};'
          ' y{g}, e{g}: int; d{g}: bool;')

def program(stages):
    """So many stages, one behind the other."""
    text = 'node main(y0: int; d0: bool; e0: int) returns (y: int; d: bool; e: int);\nvar %s\nlet\n' % ' '.join(LOCALS.format(g=g) for g in range(1, stages + 1))
    return text + ''.join(STAGE.format(g=g, p=g - 1) for g in range(1, stages + 1)) + '  y = y{g}; d = d{g}; e = e{g};\ntel\n'.format(g=stages)

def feedback(halves):
    """The stages in a ring of one part, or of two halves that read each other's last values of the instant before."""
    cuts = (1, STAGES // 2 + 1) if halves else (1,)
    rows, fed = [], []
    for g in range(1, STAGES + 1):
        if g not in cuts:
            rows.append(STAGE.format(g=g, p=g - 1))
            continue
        before = (g - 2) % STAGES + 1 if halves else STAGES
        fed += ['fy%d: int; fd%d: bool; fe%d: int;' % (g, g, g)]
        stage = STAGE.format(g=g, p='@').replace('y@', 'fy%d' % g).replace('d@', 'fd%d' % g).replace('e@', 'fe%d' % g)
        rows.append(stage + '  fy%d = (0 -> (pre y%d + i) mod 1009); fd%d = false -> pre d%d; fe%d = 0 -> (pre e%d) mod 1013;\n' % (g, before, g, before, g, before))
    names = ' '.join([LOCALS.format(g=g) for g in range(1, STAGES + 1)] + fed)
    return 'node main(i: int) returns (y: int; d: bool; e: int);\nvar %s\nlet\n%s  y = y%d; d = d%d; e = e%d;\ntel\n' % (names, ''.join(rows), STAGES, STAGES, STAGES)

def fed_placement(halves):
    site = lambda g: '"s%d"' % ((g - 1) * 2 // STAGES)
    lines = ['i = %s' % ('["s0", "s1"]' if halves else '"s0"')] + ['%s = "s1"' % v for v in 'yde']
    lines += ['%s%d = %s' % (v, g, site(g)) for g in ((1, STAGES // 2 + 1) if halves else (1,)) for v in ('fy', 'fd', 'fe')]
    lines += ['%s%d = %s' % (v, g, site(g)) for g in range(1, STAGES + 1) for v in 'n m held k s t u up r least low y d e'.split()]
    return 'version = 2\nsites = ["s0", "s1"]\ncapacity = 1024\n[place]\n%s\n' % '\n'.join(lines)

def placement(parts, capacity):
    """The stages at so many sites, as many at each: the first ones at the first, and so on."""
    names = ['s%d' % s for s in range(parts)]
    lines = ['%s0 = "s0"' % v for v in 'yde'] + ['%s = "%s"' % (v, names[-1]) for v in 'yde']
    lines += ['%s%d = "%s"' % (v, g, names[(g - 1) * parts // STAGES]) for g in range(1, STAGES + 1) for v in 'n m held k s t u up r least low y d e'.split()]
    return 'sites = [%s]\ncapacity = %d\n[place]\n%s\n' % (', '.join('"%s"' % n for n in names), capacity, '\n'.join(lines))

def table(instants):
    return 'y0,d0,e0\n' + ''.join('%d,%s,%d\n' % (t * 7919 % 1009, 'true' if t * 31 % 7 < 3 else 'false', t * 31 % 1013) for t in range(instants))

# ---- C --------------------------------------------------------------------------------------------------------------------

RINGS = '''#include <pthread.h>
#include <sched.h>
#include <stdatomic.h>
#define ROOM 1024
typedef struct { _Alignas(64) _Atomic long put; long seen_taken; _Alignas(64) _Atomic long taken; long seen_put; _Alignas(64) int64_t words[ROOM]; } Ring;
static Ring ring[%d][3];
static int64_t *in[3], *out[3];
static inline void give(Ring *r, int64_t word) {
    long at = atomic_load_explicit(&r->put, memory_order_relaxed);
    while (at - r->seen_taken == ROOM) { r->seen_taken = atomic_load_explicit(&r->taken, memory_order_acquire); if (at - r->seen_taken == ROOM) sched_yield(); }
    r->words[at %% ROOM] = word;
    atomic_store_explicit(&r->put, at + 1, memory_order_release);
}
static inline int64_t take(Ring *r) {
    long at = atomic_load_explicit(&r->taken, memory_order_relaxed);
    while (at == r->seen_put) { r->seen_put = atomic_load_explicit(&r->put, memory_order_acquire); if (at == r->seen_put) sched_yield(); }
    int64_t word = r->words[at %% ROOM];
    atomic_store_explicit(&r->taken, at + 1, memory_order_release);
    return word;
}
'''
MAIN = '''static long instants;
static void *work(void *part) { parts[(long)part](instants); return 0; }
int main(int argc, char **argv) {
    long n = instants = atol(argv[1]); static char line[65536]; fgets(line, sizeof line, stdin);
    for (int p = 0; p < 3; p++) { in[p] = calloc(n, 8); out[p] = calloc(n, 8); }
    for (long t = 0; t < n; t++) { fgets(line, sizeof line, stdin); char *f = line;
        for (int p = 0; p < 3; p++) { in[p][t] = *f == 't' ? 1 : *f == 'f' ? 0 : strtoll(f, 0, 10); f = strchr(f, ','); f = f ? f + 1 : ""; } }
    struct timespec a, b; clock_gettime(CLOCK_MONOTONIC, &a);
    pthread_t threads[COUNT];
    for (long p = 1; p < COUNT; p++) if (pthread_create(threads + p, 0, work, (void *)p)) exit(4);
    parts[0](n);
    for (long p = 1; p < COUNT; p++) pthread_join(threads[p], 0);
    clock_gettime(CLOCK_MONOTONIC, &b);
    fprintf(stderr, "%.0f\\n", (b.tv_sec - a.tv_sec) * 1e9 + (b.tv_nsec - a.tv_nsec));
    puts("y,d,e");
    for (long t = 0; t < n; t++) printf("%lld,%s,%lld\\n", (long long)out[0][t], out[1][t] ? "true" : "false", (long long)out[2][t]);
    return 0;
}
'''

class Part(c_tool.Code):
    """The C of one part, between two rows of rings; the first reads the inputs, and the last writes the outputs."""

    def __init__(self, flat, number, count):
        super().__init__(flat)
        self.number, self.count = number, count

    def value(self, place):
        if self.flows[place].form == 'input' and self.number:
            return 'take(&ring[%d][%d])' % (self.number - 1, place)
        return super().value(place)

    def run(self):
        first = self.flat.outputs[0]
        lines = []
        for line in super().run():
            if line.startswith('out['):
                place = int(line[4:line.index(']')])
                last = self.number == self.count - 1
                line = 'out[%d][t] = v%d;' % (place - first, place) if last else 'give(&ring[%d][%d], v%d);' % (self.number, place - first, place)
            lines.append(line)
        lines[0] = lines[0].replace('run(', 'part%d(' % self.number)
        return lines

def c_text(parts):
    flat = c_tool.model.Flat(c_tool.model.program(program(STAGES // parts)), 'main')
    lines = [c_tool.HEAD, RINGS % parts] + [line for p in range(parts) for line in Part(flat, p, parts).run()]
    names = ', '.join('part%d' % p for p in range(parts))
    return '\n'.join(lines + ['#define COUNT %d' % parts, 'static void (*parts[])(long) = {%s};' % names, MAIN])

# ---- times ----------------------------------------------------------------------------------------------------------------

class Work:
    def __init__(self, given, folder):
        self.given, self.folder, self.wanted = given, folder, {}
        self.source = self.path('p.lus', program(STAGES))
        flat = c_tool.model.Flat(c_tool.model.program(program(STAGES)), 'main')
        self.flows = len(flat.flows)
        for parts in PARTS:
            subprocess.run(['gcc', '-O2', '-w', '-pthread', '-DCHECKED', self.path('c%d.c' % parts, c_text(parts)), '-o', '%s/c%d' % (folder, parts)], check=True)

    def path(self, name, text):
        path = self.folder + '/' + name
        if not os.path.exists(path):
            with open(path, 'w') as file:
                file.write(text)
        return path

    def table(self, instants):
        return self.path('%d.csv' % instants, table(instants))

    def called(self, words):
        begun = time.perf_counter()
        out = subprocess.run(words, stdout=subprocess.PIPE, check=True).stdout
        return time.perf_counter() - begun, out

    def compared(self, instants, out, what):
        if instants not in self.wanted:
            self.wanted[instants] = self.called([self.given.program, 'eval', self.source, self.table(instants)])[1]
        if out != self.wanted[instants]:
            sys.exit('another table than that of eval: %s' % what)

    def seconds(self, program, words, instants, pinned=[], flags=[]):
        """What a command of a build takes for so many instants more than for none."""
        found = []
        for count in (0, instants):
            taken, out = self.called(pinned + [program] + words + [self.table(count)] + flags)
            self.compared(count, out, words + flags)
            found.append(taken)
        return found

    def by_c(self, parts, instants, pinned):
        ran = subprocess.run(pinned + ['%s/c%d' % (self.folder, parts), str(instants)], stdin=open(self.table(instants)), capture_output=True, check=True)
        self.compared(instants, ran.stdout, 'C in %d parts' % parts)
        return [0, float(ran.stderr) / 1e9]

    def way(self, parts, capacity, words, instants=None, pinned=()):
        place = self.path('%d_%d.toml' % (parts, capacity), placement(parts, capacity))
        return lambda build: self.seconds(build, ['run', self.source, place], instants or self.given.instants, list(pinned), words)

class Fed(Work):
    """The programs whose sites feed each other, at two sites."""

    def __init__(self, given, folder, halves):
        self.given, self.folder, self.wanted = given, folder, {}
        name = 'pair' if halves else 'ring'
        self.source, self.place = self.path(name + '.lus', feedback(halves)), self.path(name + '.toml', fed_placement(halves))

    def table(self, instants):
        return self.path('fed%d.csv' % instants, 'i\n' + ''.join('%d\n' % (t * 7919 % 1009) for t in range(instants)))

    def ways(self, instants, kinds):
        of = lambda words, flags: lambda build: self.seconds(build, words, instants, [], flags)
        return [('eval', of(['eval', self.source], []))] + [(name, of(['run', self.source, self.place], flags)) for name, flags in kinds]

def fed_back(given, folder):
    for halves in (False, True):
        work, name = Fed(given, folder, halves), 'a pair' if halves else 'a ring'
        report(work, '%s at two sites, %d instants' % (name, given.instants), work.ways(given.instants, [('two threads', ['--workers', '2']), ('one worker', ['--workers', '1'])]))
        report(work, '%s, item by item, %d instants' % (name, given.items), work.ways(given.items, [('two threads', ['--items', '--workers', '2']), ('one worker', ['--items', '--workers', '1'])]))

def report(work, title, ways):
    """The best of each way, all of them by turns; the first is what the others are compared with. Each build's turn of a way is next to the other's."""
    builds = [work.given.program] + ([work.given.beside] if work.given.beside else [])
    rows = zip(*([way(build) for _, way in ways for build in builds] for _ in range(work.given.rounds)))
    best = [min(full) - min(none) for none, full in (zip(*row) for row in rows)]
    print('\n%s' % title)
    for k, (name, _) in enumerate(ways):
        mine, *other = best[k * len(builds):(k + 1) * len(builds)]
        beside = ''.join('   beside %.3f s: %.2f of it' % (seconds, mine / seconds) for seconds in other)
        print('    %-44s %7.3f s   %.2f times%s' % (name, mine, best[0] / mine, beside), flush=True)

def main():
    words = argparse.ArgumentParser(usage=__doc__)
    words.add_argument('--program', default=built.LUSDIST)
    words.add_argument('--beside')
    words.add_argument('--instants', type=int, default=100000)
    words.add_argument('--items', type=int, default=5000)
    words.add_argument('--rounds', type=int, default=5)
    words.add_argument('--keep')
    words.add_argument('--feedback', action='store_true')
    given = words.parse_args()
    given.program = built.program(given.program)
    given.beside = given.beside and built.program(given.beside)
    sys.setrecursionlimit(100000)
    crew = lambda n: ['--workers', str(n)]
    with tempfile.TemporaryDirectory() as folder:
        if given.feedback:
            return fed_back(given, given.keep or folder)
        work = Work(given, given.keep or folder)
        evaluated = ('eval', lambda build: work.seconds(build, ['eval', work.source], given.instants))
        print('%d flows, %d instants' % (work.flows, given.instants))
        for parts in PARTS:
            ways = [('capacity %d, a thread each' % c, work.way(parts, c, [])) for c in CAPACITIES]
            ways += [('capacity %d, a crew of 4' % c, work.way(parts, c, crew(4))) for c in CAPACITIES if parts > 4]
            report(work, '%d sites' % parts, [evaluated] + ways + [('C, a thread each', lambda _: work.by_c(parts, given.instants, []))])
        two = ['taskset', '-c', '0,1']
        report(work, '16 sites, 2 of 4 processors', [('eval', lambda build: work.seconds(build, ['eval', work.source], given.instants, two)),
               ('capacity 1024, a crew of 2', work.way(16, 1024, crew(2), None, two)), ('capacity 1024, a thread each', work.way(16, 1024, [], None, two))])
        few = [('eval', lambda build: work.seconds(build, ['eval', work.source], given.items))]
        report(work, 'item by item, %d instants' % given.items, few + [('%d sites, capacity 1024' % p, work.way(p, 1024, ['--items'], given.items)) for p in (1, 2, 4)])

main()
