"""Measures the evaluator beside the same programs written out as C.

    tools/bench c [--program PATH] [--instants N] [--runs N] [--keep FOLDER] [NAME ..]

no_cycle    delay lines and arithmetic on the base clock; no cycle
half_slow   a chain of stages with half of their flows on slow clocks, which are true about every other time
rare        the same with clocks that are true at one of sixteen instants
one_cycle   a ring on the base clock: one cycle through everything
slow_cycle  the chain of half_slow, whose first stage reads the last one's output of the instant before: one cycle with clocks inside
controllers counters, integrators with limits, filters, edges and what joins them, in groups: many small cycles
and three of examples/: pid_controller, cruise_control, washing_machine, over their tables again and again.

The C is written twice, and gcc -O2 compiles it. `step` is what a code generator for a controller writes: a function that is called once an instant, its memories in statics, the equations in an
order of reads, each clock an `if` around the flows that follow one another on it; after each operation `if (__builtin_expect(__builtin_add_overflow(..), 0)) exit(3)` and its like. `loop` is the C of
which gcc makes most: one loop, all memories local, flows of one clock kept together, the same tests without the hint, which costs half of the time. `free` is the loop with sums that wrap.
What each prints has to be what `lusdist eval` prints. Of the C its loop alone is timed, with inputs and outputs in arrays; of the evaluator (crates/lusdist/out/lusdist) what a whole command takes longer for
N instants (20,000) than for a tenth of them, reading and writing the tables with it. The least of --runs (5) rounds over all programs, in nanoseconds a flow and instant. Last it reports what the machine does at the moment:
a core that nobody shares does some 9 sums a ns, and predicts a jump by a table (2 to 3 ns with its operations).
"""
import argparse, heapq, os, subprocess, sys, tempfile, time
from importlib.machinery import SourceFileLoader

sys.dont_write_bytecode = True
TOP = os.path.dirname(os.path.dirname(os.path.dirname(os.path.realpath(__file__))))
sys.path.insert(0, TOP + '/tools')
model = SourceFileLoader('model', TOP + '/tools/model').load_module()
import built

class Text:
    """A node of equations, with an integer input x and a truth c."""

    def __init__(self):
        self.locals, self.lines = [], []

    def put(self, name, kind, right):
        self.locals.append('%s: %s' % (name, kind))
        self.lines.append('  %s = %s;' % (name, right))
        return name

    def node(self, y, d):
        return 'node main(x: int; c: bool) returns (y: int; d: bool);\nvar %s;\nlet\n%s\n  y = %s;\n  d = %s;\ntel\n' % ('; '.join(self.locals), '\n'.join(self.lines), y, d)

def no_cycle(groups=33):
    t, p, q = Text(), 'x', 'c'
    for g in range(groups):
        n = lambda name: '%s%d' % (name, g)
        z, lim = t.put(n('z'), 'int', '0'), t.put(n('top'), 'int', str(1000 + g))
        d1 = t.put(n('d'), 'int', '%s -> pre %s' % (z, p))
        d2 = '(0 -> pre %s)' % d1
        s = t.put(n('s'), 'int', '%s * 3 + %s * 5 - %s + x' % (p, d1, d2))
        hi, lo = t.put(n('hi'), 'bool', '%s > %s' % (s, lim)), t.put(n('lo'), 'bool', '%s < %s' % (s, z))
        w = t.put(n('w'), 'int', 'if %s and (%s xor (false -> pre %s)) then %s - %s else if %s then %s else if %s then %s else %s' % (hi, q, q, s, lim, lo, z, hi, lim, s))
        q = t.put(n('q'), 'bool', '%s >= %s or %s' % (w, d1, lo))
        p = t.put(n('p'), 'int', '%s mod 4093' % w)
    return t.node(p, q)

def chain(groups=14, back=False, rare=False):
    t = Text()
    y, d = t.put('y0', 'int', '(x + (0 -> pre y)) mod 1009' if back else 'x mod 1009'), 'c'
    for g in range(groups):
        v = {name: '%s%d' % (name, g) for name in 'n m k s t up u r least low held'.split()}
        v.update(x=y, c=d)
        put = lambda name, kind, right: t.put(v[name], kind % v, right % v)
        put('n', 'int', '0 -> (pre %(n)s + 1) mod 1000')
        put('m', 'int', '0 -> if %(c)s then pre %(m)s else (pre %(m)s + %(x)s) mod 1009')
        put('k', 'bool', 'true -> %(n)s mod 16 = 0' if rare else 'true -> not (%(c)s and %(x)s > %(n)s)')
        put('s', 'int when %(k)s', '(%(x)s when %(k)s) + (%(n)s when %(k)s)')
        put('t', 'int when %(k)s', '0 -> (pre %(t)s + %(s)s) mod 10007')
        put('up', 'bool when %(k)s', 'true -> %(t)s > pre %(t)s or not pre %(up)s')
        put('u', 'int when %(k)s', 'if %(up)s then %(t)s - %(s)s else %(s)s - %(t)s')
        put('r', 'int when not %(k)s', '((%(x)s when not %(k)s) - (0 -> pre %(r)s)) mod 997')
        put('least', 'int when not %(k)s', '%(r)s -> if %(r)s < pre %(least)s then %(r)s else pre %(least)s')
        put('low', 'bool when not %(k)s', '%(r)s = %(least)s or (%(c)s when not %(k)s)')
        put('held', 'int', 'current %(u)s')
        v['y'], v['d'] = 'y%d' % (g + 1), 'd%d' % (g + 1)
        put('y', 'int', '(merge %(k)s (true -> %(u)s) (false -> if %(low)s then %(least)s else %(r)s) + %(held)s - %(m)s) mod 1009')
        put('d', 'bool', 'not %(c)s and %(held)s > %(n)s')
        y, d = v['y'], v['d']
    return t.node(y, d)

def one_cycle(groups=76):
    t = Text()
    for name, number in (('zero', 0), ('three', 3), ('thousand', 1000), ('half', 500)):
        t.put(name, 'int', str(number))
    p = t.put('back', 'int', 'zero -> pre y')
    for g in range(groups):
        n = lambda name: '%s%d' % (name, g)
        a = t.put(n('a'), 'int', p + ' + x')
        r = t.put(n('r'), 'int', '(%s * three - x) mod thousand' % a)
        l = t.put(n('l'), 'bool', r + ' < half')
        p = t.put(n('p'), 'int', '(if c and %s then if %s then zero -> pre %s else %s else %s + x) + %s' % (l, l, r, a, r, r))
    return t.node(p + ' mod 4093', 'y > x')

def controllers(groups=18):
    t, p, q = Text(), 'x', 'c'
    for g in range(groups):
        n = lambda name: '%s%d' % (name, g)
        z, f, three = t.put(n('z'), 'int', '0'), t.put(n('f'), 'bool', 'false'), t.put(n('three'), 'int', '3')
        err = t.put(n('err'), 'int', '%d - %s' % (500 + g, p))
        s, hi, lo = t.put(n('s'), 'int', 'pre %s + %s' % (n('it'), err)), t.put(n('hi'), 'int', '100000'), t.put(n('lo'), 'int', '-100000')
        it = t.put(n('it'), 'int', '0 -> if %s > %s then %s else if %s < %s then %s else %s' % (s, hi, hi, s, lo, lo, s))
        cnt = t.put(n('cnt'), 'int', '%s -> if %s then %s else pre %s + 1' % (z, q, z, n('cnt')))
        last = t.put(n('last'), 'int', 'pre ' + n('flt'))
        flt = t.put(n('flt'), 'int', '%s -> %s + (%s - %s) div 8' % (err, last, err, last))
        edge = t.put(n('edge'), 'bool', '%s -> %s and not pre %s' % (f, q, q))
        was = t.put(n('was'), 'bool', 'pre ' + n('db'))
        db = t.put(n('db'), 'bool', '%s -> if %s then not %s else %s' % (f, edge, was, was))
        top = t.put(n('top'), 'int', '1000')
        sum = t.put(n('sum'), 'int', '%s * %s + %s div 16 + %s' % (err, three, it, flt))
        over = t.put(n('over'), 'bool', '%s > %s' % (sum, top))
        w = t.put(n('w'), 'int', 'if %s > %s then if %s then %s else %s else %s' % (cnt, three, over, top, sum, p))
        p = t.put(n('p'), 'int', 'if %s < %s then - %s else %s' % (w, z, w, w))
        q = t.put(n('q'), 'bool', '%s xor %s' % (db, over))
    return t.node(p, q)

def numbers(instants):
    """A table of numbers below 16,384 and truths, by chance."""
    lines, seed = ['x,c'], 12345
    for _ in range(instants):
        seed = (seed * 6364136223846793005 + 1442695040888963407) % 2 ** 64
        lines.append('%d,%s' % (seed >> 50, 'true' if seed >> 40 & 1 else 'false'))
    return '\n'.join(lines) + '\n'

def again(name):
    """The rows of an example's table, over and over."""
    rows = open('%s/examples/%s/table.csv' % (TOP, name)).read().splitlines()
    return lambda instants: '\n'.join([rows[0]] + [rows[1 + i % (len(rows) - 1)] for i in range(instants)]) + '\n'

PROGRAMS = {'no_cycle': no_cycle(), 'half_slow': chain(), 'rare': chain(rare=True), 'one_cycle': one_cycle(), 'slow_cycle': chain(back=True), 'controllers': controllers()}
PROGRAMS = {name: (text, numbers) for name, text in PROGRAMS.items()}
for each in ('pid_controller', 'cruise_control', 'washing_machine'):
    PROGRAMS[each] = open('%s/examples/%s/program.lus' % (TOP, each)).read(), again(each)

# ---- C --------------------------------------------------------------------------------------------------------------------

HEAD = '''#include <stdint.h>
#include <stdio.h>
#include <stdlib.h>
#include <string.h>
#include <time.h>
#ifdef CHECKED
#define CALC(f, a, b) ({ int64_t r_; if (__builtin_##f##_overflow((int64_t)(a), (int64_t)(b), &r_)) exit(3); r_; })
#define ADD(a, b) CALC(add, a, b)
#define SUB(a, b) CALC(sub, a, b)
#define MUL(a, b) CALC(mul, a, b)
#define FITS(a, b) if ((b) == 0 || ((b) == -1 && (a) == INT64_MIN)) exit(3)
#else
#define ADD(a, b) (int64_t)((uint64_t)(a) + (uint64_t)(b))
#define SUB(a, b) (int64_t)((uint64_t)(a) - (uint64_t)(b))
#define MUL(a, b) (int64_t)((uint64_t)(a) * (uint64_t)(b))
#define FITS(a, b)
#endif
#define DIV(a, b) ({ int64_t a_ = (a), b_ = (b); FITS(a_, b_); a_ / b_; })
#define MOD(a, b) ({ int64_t a_ = (a), b_ = (b); FITS(a_, b_); a_ % b_; })
'''
CALLS = {'+': 'ADD', '-': 'SUB', '*': 'MUL', 'div': 'DIV', 'mod': 'MOD'}
SIGNS = {'=': '==', '<>': '!=', 'and': '&', 'or': '|', 'xor': '^'}

class Code:
    """The C of a flat program."""

    def __init__(self, flat):
        self.flat, self.flows = flat, flat.flows
        self.clocks = {}  # the number of each clock that isn't the base clock
        for flow in self.flows:
            if flow.clock is not None:
                self.clocks.setdefault(flow.clock, len(self.clocks))
        self.kept = sorted({flow.operands[0] for flow in self.flows if flow.form in ('pre', 'current')})

    def on(self, clock):
        return '1' if clock is None else 'k%d' % self.clocks[clock]

    def began(self, clock):
        return 'began' if clock is None else 'began%d' % self.clocks[clock]

    def order(self):
        """The places in an order of reads, with as many of one clock in a row as there are at hand."""
        reads = [set(self.flat.clocks_above(p)) | set(() if f.form == 'pre' else f.operands) for p, f in enumerate(self.flows)]
        readers, left, ready, clock = [[] for _ in reads], [len(r) for r in reads], {}, None
        for place, read in enumerate(reads):
            for other in read:
                readers[other].append(place)
            if not read:
                ready.setdefault(self.flows[place].clock, []).append(place)
        while ready:
            clock = clock if clock in ready else next(iter(ready))
            place = ready[clock].pop(0)
            if not ready[clock]:
                del ready[clock]
            yield place
            for reader in readers[place]:
                left[reader] -= 1
                if not left[reader]:
                    ready.setdefault(self.flows[reader].clock, []).append(reader)

    def value(self, place):
        flow = self.flows[place]
        form, word, v = flow.form, flow.word, ['v%d' % operand for operand in flow.operands]
        if form == 'input':
            return 'in[%d][t]' % place
        if form == 'constant':
            return ('%d' % word if word is not True and word is not False else '%d' % int(word)) + ('LL' if word not in (True, False) or isinstance(word, int) and not isinstance(word, bool) else '')
        if form in ('copy', 'when'):
            return v[0]
        if form in ('merge', 'if'):
            return '%s ? %s : %s' % tuple(v)
        if form == '->':
            return '%s ? %s : %s' % (self.began(flow.clock), v[1], v[0])
        if form == 'pre':
            return 'l%d' % flow.operands[0]
        if form == 'current':
            return '%s ? %s : l%d' % (self.on(self.flows[flow.operands[0]].clock), v[0], flow.operands[0])
        if len(v) == 1:
            return 'SUB(0, %s)' % v[0] if word == '-' else '!' + v[0]
        if word == '=>':
            return '!%s | %s' % tuple(v)
        return '%s(%s, %s)' % (CALLS[word], *v) if word in CALLS else '%s %s %s' % (v[0], SIGNS.get(word, word), v[1])

    def step(self):
        clock, lines = None, []
        def go_to(new):
            nonlocal clock
            if clock != new:
                lines.extend(['}'] * (clock is not None) + ['if (%s) {' % self.on(new)] * (new is not None))
                clock = new
        for place in self.order():
            go_to(self.flows[place].clock)
            lines.append('v%d = %s;' % (place, self.value(place)))
            lines += ['%s = v%d == %d;' % (self.on(c), place, c[1]) for c in self.clocks if c[0] == place]
        for place in sorted(self.flat.outputs, key=lambda p: str(self.flows[p].clock)):
            go_to(self.flows[place].clock)
            lines.append('out[%d][t] = v%d; there[%d][t] = 1;' % (place, place, place))
        for place in sorted(self.kept, key=lambda p: str(self.flows[p].clock)):
            go_to(self.flows[place].clock)
            lines.append('l%d = v%d;' % (place, place))
        for new in self.clocks:
            go_to(new)
            lines.append('%s = 1;' % self.began(new))
        go_to(None)
        return lines + ['began = 1;']

    def head(self):
        return HEAD

    def memories(self):
        """What is kept from one instant to the next, and whether each clock is true."""
        return ['char began = 0;'] + ['char %s = 0, %s = 0;' % (self.on(c), self.began(c)) for c in self.clocks] + ['int64_t l%d = 0;' % p for p in self.kept]

    def run(self):
        """The loop over all instants."""
        nested = [self.on(c) + ' = 0;' for c in self.clocks if self.flows[c[0]].clock is not None]
        lines = ['static __attribute__((noinline)) void run(long n) {'] + self.memories()
        return lines + ['int64_t %s;' % ', '.join('v%d = 0' % p for p in range(len(self.flows))), 'for (long t = 0; t < n; t++) {'] + nested + self.step() + ['}', '}']

    def text(self):
        ins, outs = len(self.flat.main.inputs), self.flat.outputs
        kind = lambda p: 'true' if self.flat.variables[p].kind == 'bool' else ''
        lines = [self.head(), 'static int64_t *in[%d], *out[%d]; static char *there[%d];' % ((max(ins, outs.stop) + 1,) * 3)] + self.run()
        lines += ['int main(int argc, char **argv) {', 'long n = atol(argv[1]); static char line[65536]; fgets(line, sizeof line, stdin);']
        lines += ['in[%d] = calloc(n, 8);' % p for p in range(ins)] + ['out[%d] = calloc(n, 8); there[%d] = calloc(n, 1);' % (p, p) for p in outs]
        lines += ['for (long t = 0; t < n; t++) { fgets(line, sizeof line, stdin); char *f = line;']
        lines += ['in[%d][t] = *f == \'t\' ? 1 : *f == \'f\' ? 0 : strtoll(f, 0, 10); f = strchr(f, \',\'); f = f ? f + 1 : "";' % p for p in range(ins)]
        lines += ['}', 'struct timespec a, b; clock_gettime(CLOCK_MONOTONIC, &a); run(n); clock_gettime(CLOCK_MONOTONIC, &b);']
        lines += ['fprintf(stderr, "%.0f\\n", (b.tv_sec - a.tv_sec) * 1e9 + (b.tv_nsec - a.tv_nsec));', 'puts("%s");' % ','.join(self.flat.variables[p].name for p in outs), 'for (long t = 0; t < n; t++) {']
        for p in outs:
            end = '\\n' if p == outs[-1] else ','
            said = 'fputs(out[%d][t] ? "true%s" : "false%s", stdout)' % (p, end, end) if kind(p) else 'printf("%%lld%s", (long long)out[%d][t])' % (end, p)
            lines.append('if (there[%d][t]) %s; else fputs("-%s", stdout);' % (p, said, end))
        return '\n'.join(lines + ['}', 'return 0;', '}', ''])

class Steps(Code):
    """The same as a function that is called once an instant."""

    def order(self):
        """The places in an order of reads, the least that is at hand first."""
        reads = [set(self.flat.clocks_above(p)) | set(() if f.form == 'pre' else f.operands) for p, f in enumerate(self.flows)]
        readers, left = [[] for _ in reads], [len(r) for r in reads]
        for place, read in enumerate(reads):
            for other in read:
                readers[other].append(place)
        ready = [place for place, read in enumerate(reads) if not read]
        heapq.heapify(ready)
        while ready:
            place = heapq.heappop(ready)
            yield place
            for reader in readers[place]:
                left[reader] -= 1
                if not left[reader]:
                    heapq.heappush(ready, reader)

    def head(self):
        return HEAD.replace('if (__builtin_##f##_overflow((int64_t)(a), (int64_t)(b), &r_)) exit(3);', 'if (__builtin_expect(__builtin_##f##_overflow((int64_t)(a), (int64_t)(b), &r_), 0)) exit(3);')

    def run(self):
        nested = [self.on(c) + ' = 0;' for c in self.clocks if self.flows[c[0]].clock is not None]
        lines = ['static %s' % line for line in self.memories()]
        lines += ['static int step(long t) {', 'int64_t %s;' % ', '.join('v%d = 0' % p for p in range(len(self.flows)))] + nested + self.step() + ['return 0;', '}']
        return lines + ['static __attribute__((noinline)) void run(long n) {', 'for (long t = 0; t < n; t++) if (step(t)) exit(3);', '}']

# ---- times ----------------------------------------------------------------------------------------------------------------

class Measured:
    """A program with its C, built, and the least nanoseconds that each was seen to take."""

    def __init__(self, name, folder, given):
        text, table = PROGRAMS[name]
        self.name, self.folder, self.given = name, folder, given
        flat = model.Flat(model.program(text), 'main')
        self.flows, self.few = len(flat.flows), given.instants // 10
        for end, content in (('.lus', text), ('.csv', table(given.instants)), ('_few.csv', table(self.few)), ('_step.c', Steps(flat).text()), ('_loop.c', Code(flat).text())):
            with open(self.path(end), 'w') as file:
                file.write(content)
        for end, source, flags in (('_step', '_step.c', ['-DCHECKED']), ('_loop', '_loop.c', ['-DCHECKED']), ('_free', '_loop.c', ['-fwrapv'])):
            subprocess.run(['gcc', '-O2', '-w', *flags, self.path(source), '-o', self.path(end)], check=True)
        self.wanted = subprocess.run([given.program, 'eval', self.path('.lus'), self.path('.csv')], capture_output=True)
        if self.wanted.returncode:
            sys.exit('%s: %s' % (name, self.wanted.stderr.decode()))
        self.least = {}

    def path(self, end):
        return '%s/%s%s' % (self.folder, self.name, end)

    def take(self, end):
        """The nanoseconds of a whole command, or of the loop of a C program, whose outputs have to be the command's."""
        if end.endswith('.csv'):
            begin = time.perf_counter()
            subprocess.run([self.given.program, 'eval', self.path('.lus'), self.path(end)], stdout=subprocess.DEVNULL, check=True)
            return (time.perf_counter() - begin) * 1e9
        ran = subprocess.run([self.path(end), str(self.given.instants)], stdin=open(self.path('.csv')), capture_output=True)
        if ran.stdout != self.wanted.stdout:
            sys.exit('%s%s: status %d, not the outputs of lusdist eval' % (self.name, end, ran.returncode))
        return float(ran.stderr)

    def round(self):
        for end in ('.csv', '_few.csv', '_step', '_loop', '_free'):
            self.least[end] = min(self.take(end), self.least.get(end, float('inf')))

    def row(self):
        """Nanoseconds a flow and instant: of the evaluator, and of C by steps, in a loop and free."""
        instants, least = self.given.instants, self.least
        mine = (least['.csv'] - least['_few.csv']) / (instants - self.few) / self.flows
        step, loop, free = (least[end] / instants / self.flows for end in ('_step', '_loop', '_free'))
        return '%-16s %5d  %9.2f %6.2f %6.2f %6.2f  %.2f, %.1f' % (self.name, self.flows, mine, step, loop, free, mine / step, mine / loop)

# What the machine does at the moment: sums that don't wait for one another, a product that waits for the one before, and a jump by a table over 457 places again and again.
PROBE = '''#include <stdint.h>
#include <stdio.h>
#include <time.h>
static uint8_t code[512];
static double now(void) { struct timespec a; clock_gettime(CLOCK_MONOTONIC, &a); return a.tv_sec * 1e9 + a.tv_nsec; }
int main(void) {
    uint64_t a = 1, b = 2, c = 3, d = 4, x = 1;
    uint32_t seed = 1;
    for (int i = 0; i < 457; i++) { seed = seed * 1664525 + 1013904223; code[i] = (seed >> 24) % 12; }
    double t0 = now();
    for (long i = 0; i < 8000000; i++) __asm__ volatile("add $1,%0\\n add $1,%1\\n add $1,%2\\n add $1,%3\\n add $1,%0\\n add $1,%1\\n add $1,%2\\n add $1,%3" : "+r"(a), "+r"(b), "+r"(c), "+r"(d));
    double t1 = now();
    for (long i = 0; i < 8000000; i++) __asm__ volatile("imul $3,%0,%0" : "+r"(x));
    double t2 = now();
    for (int r = 0; r < 9000; r++) for (int i = 0; i < 457; i++) switch (code[i]) {
#define C(n) case n: x = x * 3 + n; x ^= x >> n; break;
        C(1) C(2) C(3) C(4) C(5) C(6) C(7) C(8) C(9) C(10) C(11) default: x += 5; }
    double t3 = now();
    printf("%.1f sums a ns; %.2f ns a product, %.2f a jump by a table and three operations %s\\n", 64e6 / (t1 - t0), (t2 - t1) / 8e6, (t3 - t2) / (9000 * 457.0), x == 1 ? "!" : "");
}
'''

def probed(folder):
    """Says what the machine does at the moment, five times."""
    source, program = os.path.join(folder, 'probe.c'), os.path.join(folder, 'probe')
    open(source, 'w').write(PROBE)
    subprocess.run(['gcc', '-O2', '-w', source, '-o', program], check=True)
    for _ in range(5):
        print('the machine: ' + subprocess.run([program], capture_output=True, text=True).stdout.strip())

def main():
    words = argparse.ArgumentParser(usage=__doc__)
    words.add_argument('names', nargs='*')
    words.add_argument('--program', default=built.LUSDIST)
    words.add_argument('--instants', type=int, default=20000)
    words.add_argument('--runs', type=int, default=5)
    words.add_argument('--keep')
    given = words.parse_args()
    given.program = built.program(given.program)
    sys.setrecursionlimit(100000)
    with tempfile.TemporaryDirectory() as folder:
        print('%-16s %5s  %9s %6s %6s %6s  %s' % ('program', 'flows', 'evaluator', 'step', 'loop', 'free', 'evaluator / step, / loop'))
        programs = [Measured(name, given.keep or folder, given) for name in given.names or PROGRAMS]
        for _ in range(given.runs):
            for program in programs:
                program.round()
        for program in programs:
            print(program.row())
        probed(folder)

if __name__ == '__main__':
    sys.exit(main())
