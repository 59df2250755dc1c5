"""What tools/model reads: programs as trees, their canonical text, and the static rules, by docs/LANGUAGE.md. A text that breaks
a rule is refused by the line that lusdist tells of it."""
import re
from collections import namedtuple

# ---- the tree -------------------------------------------------------------------------------------------------------------

# form: number truth name call prefix infix if when current merge; word: the operator, the name, the node or the value; sign: of a
# `when` what its variable has to be, true, false or a name of an enumeration, and of a merge that of each branch
Tree = namedtuple('Tree', 'form word operands sign', defaults=((), True))
Variable = namedtuple('Variable', 'name kind clock byte')  # the clock: None, or a name and a sign; the kind: int, bool or a type's name
Equation = namedtuple('Equation', 'left right byte')
Node = namedtuple('Node', 'name inputs outputs locals equations byte')
Type = namedtuple('Type', 'name names byte')  # the names of an enumeration, with their bytes
Program = namedtuple('Program', 'types nodes')

class Label(namedtuple('Label', 'kind number name')):
    """A name of an enumeration, as a value."""

    def __str__(self):
        return self.name

class Refused(Exception):
    """A text is refused; its argument is the line of the refusal."""

COMPARISONS = ('=', '<>', '<', '<=', '>', '>=')
# the levels of infix operators: what they are, the level asked of the left operand, and of the right one
LEVELS = {operator: levels for levels, operators in [
    ((1, 2, 0), ('->', 'fby')), ((2, 3, 2), ('=>',)), ((3, 3, 4), ('or', 'xor')), ((4, 4, 5), ('and',)), ((5, 6, 6), COMPARISONS),
    ((6, 6, 7), ('+', '-')), ((7, 7, 8), ('*', 'div', 'mod'))] for operator in operators}

KEYWORDS = ('node returns var let tel int bool true false if then else pre fby current when merge not and or xor div mod type '
            'enum').split()
TOKEN = re.compile(r'([ \t\r\n]+|--[^\n]*)|[A-Za-z_][A-Za-z0-9_]*|[0-9]+|<>|<=|>=|->|=>|[(),;:=<>+*{}-]')
GREATEST = 2 ** 63 - 1

def tokens(text):
    """The tokens of a program's text, each the longest at its place, with their bytes."""
    if len(text) > 2 ** 20:
        raise Refused('E04 TooLong')
    if any(ord(character) > 127 for character in text):
        raise Refused('E03 NotAscii')
    found, byte, run, long_run = [], 0, 0, None
    while byte < len(text):
        token = TOKEN.match(text, byte)
        if not token:
            raise Refused('E01 Syntax at %d' % byte)
        if not token[1]:
            word = token[0].lstrip('0') or '0' if token[0][0].isdigit() else token[0]
            if word[0].isdigit() and (len(word) > 19 or int(word) > GREATEST):
                raise Refused('E02 NumberTooLarge at %d' % byte)
            run = 0 if word == ';' else run + 1
            long_run = byte if run == 1001 and long_run is None else long_run
            found.append((word, byte))
        byte = token.end()
    if long_run is not None:
        raise Refused('E05 LongRun at %d' % long_run)
    return found

def is_name(word):
    return (word[:1].isalpha() or word[:1] == '_') and word not in KEYWORDS

class Reader:
    """Reads the tokens of a program from left to right. What can't stand at a place is refused there."""

    def __init__(self, text):
        self.rest = tokens(text)[::-1] or []
        self.end = len(text)

    def byte(self):
        """The byte of the next token, or the text's length."""
        return self.rest[-1][1] if self.rest else self.end

    def refuse(self):
        raise Refused('E01 Syntax at %d' % self.byte())

    def sees(self, *words):
        return bool(self.rest) and self.rest[-1][0] in words

    def word(self):
        """The next token, whatever it is."""
        return self.rest.pop()[0] if self.rest else self.refuse()

    def name(self):
        return self.word() if self.rest and is_name(self.rest[-1][0]) else self.refuse()

    def takes(self, *words):
        return self.word() if self.sees(*words) else None

    def expect(self, *words):
        for word in words:
            if not self.takes(word):
                self.refuse()

    def names(self):
        """Names with their bytes."""
        found = [(self.byte(), self.name())]
        while self.takes(','):
            found.append((self.byte(), self.name()))
        return found

    def type(self):
        self.expect('type')
        byte, name = self.byte(), self.name()
        self.expect('=', 'enum', '{')
        names = self.names()
        self.expect('}', ';')
        return Type(name, names, byte)

    def node(self):
        self.expect('node')
        byte, name = self.byte(), self.name()
        self.expect('(')
        inputs = self.declarations() if not self.sees(')') else []
        self.expect(')', 'returns', '(')
        outputs = self.declarations()
        self.expect(')')
        self.takes(';')
        inner = []
        if self.takes('var'):
            while not inner or not self.sees('let'):
                inner += self.declaration()
                self.expect(';')
        self.expect('let')
        equations = []
        while not self.takes('tel'):
            equations.append(self.equation())
        self.takes(';')
        return Node(name, inputs, outputs, inner, equations, byte)

    def declarations(self):
        found = self.declaration()
        while self.takes(';'):
            found += self.declaration()
        return found

    def declaration(self):
        names = self.names()
        self.expect(':')
        kind = self.takes('int', 'bool') or self.name()
        clock = self.clock() if self.takes('when') else None
        return [Variable(name, kind, clock, byte) for byte, name in names]

    def clock(self):
        if self.takes('not'):
            return self.name(), False
        word = self.name()
        if not self.takes('('):
            return word, True
        name = self.name()
        self.expect(')')
        return name, word

    def equation(self):
        byte = self.byte()
        if self.takes('('):
            left = [self.name()]
            self.expect(',')
            left += [name for _, name in self.names()]
            self.expect(')', '=')
            right = self.call(self.name())
        else:
            left = [self.name()]
            self.expect('=')
            right = self.expression()
        self.expect(';')
        return Equation(left, right, byte)

    def expression(self):
        if not self.takes('if'):
            return self.infix(1)
        condition = self.expression()
        self.expect('then')
        true = self.expression()
        self.expect('else')
        return Tree('if', 'if', (condition, true, self.expression()))

    def infix(self, level):
        """An expression of this level, 1 to 7, or of a higher one: operators group to the left, but -> fby => to the right."""
        if level == 8:
            return self.unary()
        found = self.infix(level + 1)
        while self.rest and LEVELS.get(self.rest[-1][0], (0,))[0] == level:
            operator = self.word()
            right = LEVELS[operator][2]
            found = Tree('infix', operator, (found, self.infix(right) if right else self.expression()))
            if level in (1, 2, 5):
                break
        return found

    def unary(self):
        operator = self.takes('not', '-', 'pre')
        if operator:
            return Tree('prefix', operator, (self.unary(),))
        if self.takes('current'):
            return Tree('current', self.name())
        found = self.atom()
        while self.takes('when'):
            name, sign = self.clock()
            found = Tree('when', name, (found,), sign)
        return found

    def atom(self):
        if self.takes('('):
            found = self.expression()
            self.expect(')')
            return found
        if self.sees('true', 'false'):
            return Tree('truth', self.word() == 'true')
        if self.rest and self.rest[-1][0].isdigit():
            return Tree('number', int(self.word()))
        if self.takes('merge'):
            return self.merge(self.name())
        word = self.name()
        return self.call(word) if self.sees('(') else Tree('name', word)

    def call(self, word):
        self.expect('(')
        arguments = []
        if not self.sees(')'):
            arguments.append(self.expression())
            while self.takes(','):
                arguments.append(self.expression())
        self.expect(')')
        return Tree('call', word, tuple(arguments))

    def merge(self, name):
        self.expect('(')
        if self.takes('true'):
            first = self.branch()
            self.expect('(', 'false')
            return Tree('merge', name, (first, self.branch()), (True, False))
        signs, branches = [self.name()], [self.branch()]
        while self.takes('('):
            signs.append(self.name())
            branches.append(self.branch())
        return Tree('merge', name, tuple(branches), tuple(signs))

    def branch(self):
        """A branch of a merge behind what its variable has to be."""
        self.expect('->')
        found = self.expression()
        self.expect(')')
        return found

def program(text):
    """The types and nodes of a program's text."""
    reader = Reader(text)
    types = []
    while reader.sees('type'):
        types.append(reader.type())
    nodes = [reader.node()]
    while reader.rest:
        nodes.append(reader.node())
    if len(nodes) > 256 or len(types) > 64 or any(len(enum.names) > 64 for enum in types):
        raise Refused('E04 TooLong')
    return Program(types, nodes)

# ---- the canonical text ---------------------------------------------------------------------------------------------------

def spelled(tree, asked=0):
    """The canonical text of an expression where its place asks for a level."""
    level = LEVELS[tree.word][0] if tree.form == 'infix' else {'if': 0, 'prefix': 8, 'current': 8, 'when': 9}.get(tree.form, 10)
    return spelled_plain(tree) if level >= asked else '(' + spelled_plain(tree) + ')'

def spelled_plain(tree):
    parts = tree.operands
    if tree.form == 'infix':
        _, left, right = LEVELS[tree.word]
        return '%s %s %s' % (spelled(parts[0], left), tree.word, spelled(parts[1], right))
    if tree.form == 'if':
        return 'if %s then %s else %s' % tuple(map(spelled, parts))
    if tree.form == 'prefix':
        return '%s %s' % (tree.word, spelled(parts[0], 8))
    if tree.form == 'when':
        return '%s when %s' % (spelled(parts[0], 9), clock_text((tree.word, tree.sign)))
    if tree.form == 'merge':
        return 'merge %s ' % tree.word + ' '.join(
            '(%s -> %s)' % (sign_text(sign), spelled(part)) for sign, part in zip(tree.sign, parts))
    if tree.form == 'call':
        return '%s(%s)' % (tree.word, ', '.join(map(spelled, parts)))
    return 'current ' + tree.word if tree.form == 'current' else str(tree.word).lower() if tree.form == 'truth' else str(tree.word)

def sign_text(sign):
    return str(sign).lower() if isinstance(sign, bool) else sign

def clock_text(clock):
    if clock is None or clock[1] is True:
        return '' if clock is None else clock[0]
    return 'not ' + clock[0] if clock[1] is False else '%s(%s)' % (clock[1], clock[0])

def declared(variable):
    return '%s: %s' % (variable.name, variable.kind) + (' when ' + clock_text(variable.clock) if variable.clock else '')

def canonical(program):
    lines = ['type %s = enum { %s };' % (enum.name, ', '.join(name for _, name in enum.names)) for enum in program.types]
    for node in program.nodes:
        inputs, outputs = ('; '.join(map(declared, variables)) for variables in (node.inputs, node.outputs))
        lines.append('node %s(%s) returns (%s);' % (node.name, inputs, outputs))
        if node.locals:
            lines.append('var ' + ' '.join(declared(variable) + ';' for variable in node.locals))
        left_sides = [left[0] if len(left) == 1 else '(%s)' % ', '.join(left) for left, _, _ in node.equations]
        equations = ['  %s = %s;' % (left, spelled(equation.right)) for left, equation in zip(left_sides, node.equations)]
        lines += ['let', *equations, 'tel']
    return ''.join(line + '\n' for line in lines)

# ---- the static rules ------------------------------------------------------------------------------------------------------

FAULTS = {10: 'DuplicateName', 11: 'UnknownName', 12: 'UnknownNode', 13: 'TypeMismatch', 14: 'WrongArity', 15: 'Undefined',
          16: 'DefinedTwice', 17: 'RecursiveNode', 18: 'NoMain', 19: 'BadMerge', 20: 'ClockMismatch', 21: 'NotAClock', 22: 'ClockedParameter',
          23: 'HiddenClock', 30: 'MaybeNil', 31: 'CurrentMayBeNil'}

def parts(tree):
    """An expression and all inside it."""
    yield tree
    for operand in tree.operands:
        yield from parts(operand)

def clocks_in(tree):
    """The variables that an expression names as clocks."""
    return [part.word for part in parts(tree) if part.form in ('when', 'merge')]

class Rules:
    """A program's nodes and what is asked of each; a fault is its byte and its number."""

    def __init__(self, program, main):
        self.types, self.nodes, self.main = program.types, program.nodes, main
        self.by_name = {node.name: node for node in reversed(program.nodes)}
        self.enums = {enum.name: [name for _, name in enum.names] for enum in reversed(program.types)}
        self.labels = labels_of(program)

    def judge(self):
        """Refuses the program by the least fault of the first stage that has one."""
        for stage in (self.names_and_types, self.clocks, self.initialisation):
            faults = [fault for node in self.nodes for fault in stage(node, Names(node, self.labels))]
            faults += [*self.type_names(), *self.calls()] if stage == self.names_and_types else []
            if faults:
                byte, number = min(faults)
                raise Refused('E%d %s at %d' % (number, FAULTS[number], byte))

    def type_names(self):
        """Types of one name, and names of enumerations that stand twice."""
        seen, labels = set(), set()
        for enum in self.types:
            if enum.name in seen:
                yield enum.byte, 10
            seen.add(enum.name)
            for byte, name in enum.names:
                if name in labels:
                    yield byte, 10
                labels.add(name)

    def calls(self):
        """The first node that reaches itself, and a main node that is missing."""
        called = {name: {part.word for equation in node.equations for part in parts(equation.right) if part.form == 'call'}
                  for name, node in self.by_name.items()}
        for node in self.nodes:
            reached, new = set(), set(called[node.name]) if self.by_name[node.name] is node else set()
            while new:
                reached |= new
                new = {name for other in new for name in called.get(other, ())} - reached
            if node.name in reached:
                yield node.byte, 17
                break
        if self.main not in self.by_name:
            yield 0, 18

    def names_and_types(self, node, names):
        if any(other.name == node.name for other in self.nodes[:self.nodes.index(node)]):
            yield node.byte, 10
        for number, variable in enumerate(names.all):
            if variable.name in self.labels or any(other.name == variable.name for other in names.all[:number]):
                yield variable.byte, 10
            if variable.kind not in ('int', 'bool', *self.enums):
                yield variable.byte, 11
            if variable.clock and not (variable.clock[0] in names.first and self.is_sign(variable.clock[1])):
                yield variable.byte, 11
        defined = [name for equation in node.equations for name in equation.left]
        yield from ((variable.byte, 15) for variable in node.outputs + node.locals if variable.name not in defined)
        before = [variable.name for variable in node.inputs]
        for equation in node.equations:
            faults = list(self.equation_faults(equation, names))
            faults += [] if faults or self.is_typed(equation, names) else [13]
            for name in equation.left:
                faults += [16] if name in before else []
                before.append(name)
            yield from ((equation.byte, number) for number in faults)

    def equation_faults(self, equation, names):
        """What is wrong with its names, calls and arities."""
        for part in parts(equation.right):
            if part.form in ('current', 'when', 'merge') and part.word not in names.first:
                yield 11
            if part.form == 'name' and part.word not in names.first and part.word not in self.labels:
                yield 11
            if part.form == 'when' and not self.is_sign(part.sign) or part.form == 'merge' and not all(map(self.is_sign, part.sign)):
                yield 11
            if part.form == 'merge' and part.word in names.first:
                wanted = self.enums.get(names.first[part.word].kind)
                if wanted is not None and list(part.sign) != wanted:
                    yield 19
            if part.form == 'call' and part.word not in self.by_name:
                yield 12
            elif part.form == 'call' and len(part.operands) != len(self.by_name[part.word].inputs):
                yield 14
            if any(inner.form == 'call' and inner.word in self.by_name and len(self.by_name[inner.word].outputs) != 1
                   for inner in part.operands):
                yield 14
        yield from (11 for name in equation.left if name not in names.first)
        right = equation.right
        values = len(self.by_name[right.word].outputs) if right.form == 'call' and right.word in self.by_name else 1
        if values != len(equation.left) and (right.form != 'call' or right.word in self.by_name):
            yield 14

    def is_sign(self, sign):
        """Whether it is a truth value or a name of an enumeration."""
        return isinstance(sign, bool) or sign in self.labels

    def is_typed(self, equation, names):
        left = [names.first[name].kind for name in equation.left]
        if equation.right.form == 'call':
            return self.kinds_of_call(equation.right, names) == left
        return [self.kind(equation.right, names)] == left

    def kinds_of_call(self, call, names):
        node = self.by_name[call.word]
        if [self.kind(part, names) for part in call.operands] != [variable.kind for variable in node.inputs]:
            return [None]
        return [variable.kind for variable in node.outputs]

    def kind(self, tree, names):
        """The type of an expression; None where it has none."""
        form, word = tree.form, tree.word
        if form in ('number', 'truth'):
            return 'int' if form == 'number' else 'bool'
        if form in ('name', 'current'):
            return names.first[word].kind if word in names.first else self.labels[word].kind
        if form == 'call':
            return self.kinds_of_call(tree, names)[0]
        kinds = [self.kind(part, names) for part in tree.operands]
        if form == 'if':
            return kinds[1] if kinds[0] == 'bool' and kinds[1] == kinds[2] else None
        if form in ('when', 'merge') or word in ('pre', '->', 'fby'):
            return kinds[0] if len(set(kinds)) == 1 else None
        if word in ('=', '<>'):
            return 'bool' if kinds[0] == kinds[1] and kinds[0] else None
        asked = 'bool' if word in ('and', 'or', 'xor', '=>', 'not') else 'int'
        made = 'bool' if word in COMPARISONS else asked
        return made if all(kind == asked for kind in kinds) else None

    def clocks(self, node, names):
        is_main = node is self.by_name[self.main]
        for variable in names.all:
            if variable.clock and not names.is_clock(*variable.clock):
                yield variable.byte, 21
            if variable.clock and (variable in node.inputs or variable in node.outputs and not is_main):
                yield variable.byte, 22
            if is_main and variable in node.outputs and variable.clock and variable.clock[0] in names.inner:
                yield variable.byte, 23
        for equation in node.equations:
            left = {names.first[name].clock for name in equation.left}
            if len(left) > 1 or not names.fits(equation.right, left.pop()):
                yield equation.byte, 20
            if not all(names.is_typed_clock(part.word, sign) for part in parts(equation.right) if part.form in ('when', 'merge')
                       for sign in (part.sign if part.form == 'merge' else [part.sign])):
                yield equation.byte, 21
            if any(output.clock for output in self.by_name[self.main].outputs) and any(
                    part.form == 'call' and part.word == self.main for part in parts(equation.right)):
                yield equation.byte, 22

    def initialisation(self, node, names):
        classes = dict.fromkeys(names.first, 0)
        for _ in names.all:
            for equation in node.equations:
                for name in equation.left:
                    classes[name] |= class_of(equation.right, classes)
        named = {variable.clock[0] for variable in names.all if variable.clock}
        named |= {name for equation in node.equations for name in clocks_in(equation.right)}
        named |= {variable.name for variable in node.outputs}
        by_left = {equation.left[0]: equation.right for equation in node.equations if len(equation.left) == 1}
        for equation in node.equations:
            if any(classes[name] for name in equation.left if name in named) or not meets(equation.right, classes):
                yield equation.byte, 30
            for part in parts(equation.right):
                if part.form == 'current' and not starts(by_left.get(names.first[part.word].clock[0]), names.first[part.word].clock[1]):
                    yield equation.byte, 31

def labels_of(program):
    """The names of enumerations, each as the first that is declared."""
    return {name: Label(enum.name, number, name)
            for enum in reversed(program.types) for number, (_, name) in reversed(list(enumerate(enum.names)))}

class Names:
    """The variables of a node, and the names of enumerations. A name means its first declaration, and a variable before a name."""

    def __init__(self, node, labels):
        self.labels = labels
        self.all = node.inputs + node.outputs + node.locals
        self.first = {variable.name: variable for variable in reversed(self.all)}
        self.inner = {variable.name for variable in node.locals}

    def is_typed_clock(self, name, sign):
        """Whether a variable has the type of what it has to be."""
        return self.first[name].kind == ('bool' if isinstance(sign, bool) else self.labels[sign].kind)

    def is_clock(self, name, sign):
        """The same, and the base clock is reached from it."""
        if not self.is_typed_clock(name, sign):
            return False
        for _ in self.all:
            if self.first[name].clock is None:
                return True
            name = self.first[name].clock[0]
        return False

    def fits(self, tree, clock):
        """Whether an expression fits a clock."""
        form, word = tree.form, tree.word
        if form in ('number', 'truth'):
            return True
        if form == 'name':
            return word not in self.first or self.first[word].clock == clock
        if form == 'when':
            return clock == (word, tree.sign) and self.fits(tree.operands[0], self.first[word].clock)
        if form == 'current':
            own = self.first[word].clock
            return own is not None and self.first[own[0]].clock == clock
        if form == 'merge':
            return self.first[word].clock == clock and all(
                self.fits(part, (word, sign)) for part, sign in zip(tree.operands, tree.sign))
        return all(self.fits(part, clock) for part in tree.operands)

def class_of(tree, classes):
    """1 where an expression may be nil at the first instant of its clock."""
    if tree.form == 'name':
        return classes.get(tree.word, 0)
    if tree.word == 'pre' or tree.form in ('number', 'truth', 'call', 'current', 'merge'):
        return int(tree.word == 'pre')
    read = tree.operands[:1] if tree.word in ('->', 'fby') else tree.operands
    return max(class_of(part, classes) for part in read)

def meets(tree, classes):
    """Whether all inside an expression that has to be of class 0 is."""
    needs = tree.operands if tree.form in ('call', 'merge') or tree.word == 'pre' else ()
    needs = tree.operands[1:] if tree.word == 'fby' else needs
    if tree.form == 'current' and classes[tree.word]:
        return False
    return not any(class_of(part, classes) for part in needs) and all(meets(part, classes) for part in tree.operands)

def starts(right, sign):
    """Whether a clock is defined by this truth and an arrow."""
    return right is not None and right.word in ('->', 'fby') and right.operands[0][:2] == (
        ('truth', sign) if isinstance(sign, bool) else ('name', sign))
