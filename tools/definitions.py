"""Reads the definitions of `specs/` and the contracts of `src/*.rt`: what each names of others. `tools/contract_lines` counts with it.

A node is a Definition or a Code, which is a type, a trait or a constant of the code; `targets` gives the nodes that it names. A text that
is not understood, or an imported name that is not found, ends the script with a message.
"""
import functools
import os
import re
import sys

from lib import TOP, crates, script

CONTRACTS = script('contracts')
CRATES = crates()
TOKEN = re.compile(r'''"[^"]*"|[^\W\d][\w']*(?:-[\w']+)*(?:\.[^\W\d][\w']*)*|\.\w+|\d+|\|\||[(){}\[\];,|.]|[^\s\w"(){}\[\];,|.]+''')
CLOSING = {'(': ')', '{': '}', '[': ']'}
HEADER = re.compile(r'((?:(?:abbrev|unfoldable|opaque|pub|record|data|mutual)\b ?)*)(\S*)')
USE = re.compile(r'(?:pub |ghost |unfoldable )*use ([\w.]+?)(?:\.\{([^}]*)\}|\.(\*))?(?: as (\w+))?;?$')
RUST_USE = re.compile(r'^(?:pub(?:\(\w+\))? )?use ([\w:]+?)(?:::\{([^}]*)\})?(?: as (\w+))?;', re.M)
ITEM = r'^(?:pub(?:\(\w+\))? )?(?:unsafe )?(struct|enum|trait|const|static|type) %s\b'
ATTRIBUTE = re.compile(r'#!?\[(?:[^\]\["]|"[^"]*"|\[[^\]]*\])*\]')
TYPE = re.compile(r'\b(?:\w+::)*[A-Z]\w*')
CLAUSE = re.compile(r'\n\s*(?:ensures|requires)\b')


@functools.lru_cache(None)
def read(path):
    with open(os.path.join(TOP, path), encoding='utf8') as file:
        return file.read()


@functools.lru_cache(None)
def is_file(path):
    return os.path.isfile(os.path.join(TOP, path))


# Tokens: words, and groups in brackets. Each knows its column if it is the first of its line.

class Word(str):
    column = None


class Group:
    def __init__(self, bracket, column):
        self.bracket, self.column, self.inner = bracket, column, []

    def binders(self):
        """the names before the colon, if that is its form"""
        colon = place(self.inner, ':') or 0
        names = [str(token) for token in self.inner[:colon] if is_name(token) and '.' not in token]
        return names if self.bracket != '[' and len(names) == colon else []

    def segments(self):
        """its parts between semicolons, without the names of fields and of implicit arguments"""
        for segment in parts(self.inner, ';'):
            yield segment[2:] if self.bracket == '{' and segment[1:2] == ['='] else segment


def tokens_of(lines):
    open_groups = [Group('', None)]
    for line in lines:
        for match in TOKEN.finditer(line):
            column = None if line[:match.start()].strip() else match.start()
            if match.group() in CLOSING.values():
                open_groups.pop()
                continue
            is_group = match.group() in CLOSING
            token = Group(match.group(), column) if is_group else Word(match.group())
            token.column = column
            open_groups[-1].inner.append(token)
            open_groups += [token] if is_group else []
    if len(open_groups) != 1:
        sys.exit('brackets that do not match: %s' % '\n'.join(lines))
    return open_groups[0].inner


def is_name(token):
    return isinstance(token, Word) and re.match(r'[^\W\d]', token) is not None


def place(tokens, mark):
    """where a word is, or None"""
    return next((at for at, token in enumerate(tokens) if token == mark), None)


def parts(tokens, mark):
    """the tokens between the marks"""
    found = [[]]
    for token in tokens:
        if token == mark:
            found.append([])
        else:
            found[-1].append(token)
    return found


class Reading:
    """the names that texts refer to, but for those that they bind; `is_constructor` tells which names a pattern does not bind"""

    def __init__(self, is_constructor=lambda name: False):
        self.is_constructor, self.found = is_constructor, set()

    def pattern(self, tokens):
        """the names that a pattern binds"""
        bound = set()
        for token in tokens:
            if isinstance(token, Group):
                for segment in token.segments():
                    bound |= self.pattern(segment)
            elif is_name(token) and self.is_constructor(token):
                self.found.add(str(token))
            elif is_name(token):
                bound.add(str(token))
        return bound

    def group(self, group, bound):
        """reads a group, and gives the names that it binds in what follows it, as `(x y : T)` does"""
        names = group.binders()
        if names:
            self.expression(group.inner[len(names) + 1:], bound)
            return set(names)
        for segment in group.segments():
            self.expression(segment, bound)
        return set()

    def arguments(self, tokens, bound):
        """reads the arguments of a λ, and gives the names that they bind"""
        names = set()
        for token in tokens:
            is_binder = isinstance(token, Group) and token.binders()
            names |= self.group(token, bound) if is_binder else self.pattern([token])
        return names

    def expression(self, tokens, outside):
        """reads an expression in which these names are bound, and gives those that are bound at its end"""
        bound, lets, later, at = set(outside), [], [], 0
        while at < len(tokens):
            token, skipped = tokens[at], 0
            bound |= {name for column, name in later if token.column == column}
            if isinstance(token, Group):
                bound |= self.group(token, bound)
            elif token == 'λ':
                skipped = place(tokens[at:], '.')
                bound |= self.arguments(tokens[at + 1:at + skipped], bound)
            elif token == 'let':
                skipped = 1
                lets.append(str(tokens[at + 1]))
            elif token == 'in' and lets:
                bound.add(lets.pop())
            elif token in (',', '|'):
                skipped = token == '|' and place(tokens[at:], '↦') or 0
                bound = outside | self.pattern(tokens[at + 1:at + skipped])
            elif tokens[at + 1:at + 2] == ['←']:
                later.append((token.column, str(token)))
            elif not token.startswith('.') and token.split('.')[0] not in bound:
                self.found.add('>>=' if token == 'do' else str(token))
            at += 1 + skipped
        return bound

    def equation(self, tokens, bound):
        equals = place(tokens, '=')
        if equals is None:
            sys.exit('no equation: %s' % ' '.join(map(str, tokens)))
        left = tokens[1:equals] if is_name(tokens[0]) else tokens[:equals]
        self.expression(tokens[equals + 1:], bound | self.pattern(left))


# Definitions.

def pieces(lines):
    """lines as pieces, each of which begins with a line of the least indentation"""
    found, least = [], min((len(line) - len(line.lstrip()) for line in lines), default=0)
    for line in lines:
        if not found or len(line) - len(line.lstrip()) == least and line.strip()[0] not in CLOSING.values():
            found.append([])
        found[-1].append(line)
    return found


def header(lines):
    """the words that say what a piece declares, and the name after them; no words for a further equation"""
    words, name = HEADER.match(lines[0].strip()).groups()
    is_plain = re.match(r'\S+ :( |$)', lines[0].strip()) is not None
    return words.split() or ['plain'] * is_plain, name


def members(lines):
    """the head of a type, up to `where`, and its constructors or fields"""
    for at, line in enumerate(lines):
        if re.search(r'\bwhere$', line):
            return lines[:at + 1], pieces(lines[at + 1:])
    return lines, []


class Definition:
    """a definition: its file, the pieces of its text, the names that it defines, and the head of its section, if it is in one"""

    def __init__(self, module, section):
        self.module, self.section, self.pieces, self.names, self.constructors = module, section, [], [], set()

    def add(self, lines):
        self.pieces.append(lines)
        for piece in self.parts(lines):
            words, name = header(piece)
            self.names += [name] if words else []
            if 'data' in words:
                self.constructors |= {constructor[0].split()[0] for constructor in members(piece)[1]}

    @staticmethod
    def parts(lines):
        """the pieces of a `mutual` block, or the piece itself"""
        return pieces(lines[1:]) if 'mutual' in header(lines)[0] else [lines]

    @property
    def lines(self):
        return sum(map(len, self.pieces))

    def targets(self):
        reading = Reading(self.module.is_constructor)
        bound = self.section.bound if self.section else set()
        for lines in self.pieces:
            for piece in self.parts(lines):
                self.read(reading, piece, bound)
        return [self.section, *map(self.module.found, sorted(reading.found))]

    def read(self, reading, piece, bound):
        """reads a type, the type of a function, or an equation"""
        words, _ = header(piece)
        if piece[0].startswith('infix'):
            return
        if not words:
            if not set(re.findall(r'[^\s()]+', ' '.join(piece).partition(' = ')[0])) & {word for it in self.names for word in it.split('◌')}:
                sys.exit('%s: of no definition: %s' % (self.module.path, piece[0]))
            reading.equation(tokens_of(piece), bound)
            return
        head, fields = members(piece) if {'record', 'data'} & set(words) else (piece, [])
        first = head[0].strip()
        bound = reading.expression(tokens_of([first[HEADER.match(first).end():], *head[1:]]), bound | {'where'})
        for field in fields:
            tokens = [token for token in tokens_of(field) if token != 'pub']
            reading.expression(tokens[1:], bound)
            bound |= {str(tokens[0])} if 'record' in words else set()

    def __str__(self):
        return '%s: %s' % (self.module.path, ', '.join(self.names))


class Section(Definition):
    """the head of a section, `module _ (x : T) where`, whose names are bound in its definitions"""

    def __init__(self, module, lines):
        super().__init__(module, None)
        self.pieces, self.names = [lines], ['module _']
        self.reading = Reading()
        self.bound = self.reading.expression(tokens_of(lines)[2:], {'where'})

    def targets(self):
        return list(map(self.module.found, sorted(self.reading.found)))


# Imports, and files of definitions.

def imports(line):
    """of an import: the words of its path, the names with those that they have there (or `*`), and the name of the path"""
    path, names, every, alias = USE.match(line.strip()).groups()
    words = path.split('.')
    if every:
        return words, '*', None
    if names is None:
        return words, {}, alias or words[-1]
    given = [name.strip().partition(' as ') for name in names.split(',') if name.strip()]
    return words, {here or there: there for there, _, here in given}, None


class Scope:
    """the names that imports give, each with the path and the name of what it stands for, or with the path alone; and the paths of
    which each name is imported"""

    def __init__(self):
        self.names, self.whole = {}, []

    def add(self, words, names, alias):
        if alias:
            self.names[alias] = words, None
        elif names == '*':
            self.whole.append(words)
        else:
            self.names.update({part: (words, there) for here, there in names.items() for part in here.split('◌') if part})

    def found(self, name):
        """what a name stands for"""
        first, _, rest = name.partition('.')
        if first not in self.names:
            return next(filter(None, (lookup(words, first, True) for words in self.whole)), None)
        words, there = self.names[first]
        there = there or rest.split('.')[0]
        return lookup(words, there) if there else None


class Module(Scope):
    """a file of definitions"""

    def __init__(self, path):
        super().__init__()
        self.path, self.definitions, self.imported, self.passed = path, [], [], []
        self.lines = read(path).count('\n')
        lines = [re.sub(r'^((?:[^"-]|"[^"]*"|-(?!-))*)--.*', r'\1', line).rstrip() for line in read(path).split('\n')]
        for piece in pieces([line for line in lines if line]):
            self.take(piece, None)
        self.defined = {part: definition for definition in self.definitions for name in [*definition.names, *definition.constructors]
                        for part in [name, *name.split('◌')] if part}

    def take(self, piece, section):
        if USE.match(piece[0].strip()):
            self.take_import(piece)
        elif piece[0].startswith('module _'):
            head, inner = members(piece)
            self.definitions.append(Section(self, head))
            section = self.definitions[-1]
            for part in inner:
                self.take(part, section)
        elif not re.match(r'(?:pub )?mod ', piece[0]):
            is_begun = self.definitions and not self.definitions[-1].names
            if piece[0].startswith('infix') or header(piece)[0] and not is_begun:
                self.definitions.append(Definition(self, section))
            self.definitions[-1].add(piece)

    def take_import(self, piece):
        words, names, alias = imports(' '.join(piece))
        if words[0] != 'Rattle':
            words = ['Rattle', *self.path.removesuffix('.antt').split('/')[1:], *words]
        self.add(words, names, alias)
        (self.passed if 'pub' in piece[0].split() else self.imported).append((words, names, alias))

    def is_constructor(self, name):
        target = self.found(name)
        return isinstance(target, Code) or isinstance(target, Definition) and self.original(name) in target.constructors

    def original(self, name):
        """a name as it is where it is defined"""
        first, _, rest = name.partition('.')
        words, there = self.names.get(first, (None, None))
        return there or rest or first

    def found(self, name):
        first = name.split('.')[0]
        return self.defined[first] if first in self.defined else super().found(name)

    def find(self, name):
        """what it gives others by a name: a definition of its own, or one that it passes on"""
        if name in self.defined:
            return self.defined[name]
        for words, names, _ in self.passed:
            there = name if names == '*' else names.get(name)
            target = lookup(words, there, names == '*') if there else None
            if target:
                return target
        return None

    def reached(self):
        """what its imports name, and what its definitions name besides, which it passes on to others too"""
        named = {lookup(words, there) for words, names, _ in self.imported if names != '*' for there in names.values()}
        return named.union(*map(targets, self.definitions)) - {None}


@functools.lru_cache(None)
def module(path):
    return Module(path)


@functools.lru_cache(None)
def passed_on(crate):
    """the paths of the modules that the definitions of a crate pass on, by their names"""
    path = 'crates/%s/specs/Lib.antt' % crate
    return {alias: words for words, _, alias in module(path).passed if alias} if is_file(path) else {}


def lookup(words, name, may_lack=False):
    """what a name of a path stands for: a definition, a part of the code, or nothing if it is of the kit"""
    crate = words[1]
    if crate not in CRATES or words[2] != 'specs':
        return None
    if words[3] in ('declared', 'contracts'):
        return code_of(crate, words[4:], name)
    path = 'crates/%s.antt' % '/'.join(words[1:])
    if is_file(path):
        return module(path).find(name) or (None if may_lack else sys.exit('%s: no %s, which is imported' % (path, name)))
    if words[3] in passed_on(crate):
        return lookup([*passed_on(crate)[words[3]], *words[4:]], name, may_lack)
    return lookup(words[:-1], words[-1], may_lack) if len(words) > 4 else sys.exit('no definitions %s' % '.'.join(words))


# The code.

def braced(text):
    """what is in the first braces of a text"""
    begin, depth = text.index('{'), 0
    for at in range(begin, len(text)):
        depth += (text[at] == '{') - (text[at] == '}')
        if depth == 0:
            return text[begin + 1:at]
    return sys.exit('no end of the braces: %s' % text)


class Source:
    """a file of code, with its imports"""

    def __init__(self, path):
        self.path, self.crate = path, path.split('/')[1]
        self.text = ATTRIBUTE.sub('', re.sub(r'^\s*//.*\n', '', read(path), flags=re.M))
        self.ghosts, self.names = Scope(), {}
        for line in re.findall(r'^\s*(ghost use [^;]*;)', self.text, re.M):
            self.ghosts.add(*imports(' '.join(line.split())))
        for path_of_use, names, alias in RUST_USE.findall(self.text):
            for name in names.split(',') if names else ['']:
                there, _, here = name.strip().partition(' as ')
                words = path_of_use.split('::') + (there.split('::') if there else [])
                self.names[here or alias or words[-1]] = words

    def declares(self, name):
        return re.search(ITEM % name, self.text, re.M) is not None

    def type_of(self, name):
        """the type, the trait or the constant that a name or a path stands for here, if it is of the repository"""
        if self.declares(name):
            return Code(self.path, name)
        first, *others = name.split('::')
        words = self.names.get(first, [first]) + others
        crate = self.crate if words[0] in ('crate', 'super', 'self') else words[0]
        return declared_in(crate, words) if crate in CRATES else None

    def named(self, text, bound):
        """what a clause names, in which these names are bound"""
        reading = Reading()
        reading.expression(tokens_of(text.split('\n')), bound)
        return [self.ghosts.found(name) or self.type_of(name.split('.')[0]) for name in reading.found]

    def contract(self, text):
        """what the contract of a function names, and its arguments and its result"""
        signature, *clauses = CLAUSE.split(text)
        bound = set(re.findall(r'\b(\w+):', signature)) | {'self', 'result', 'Self'}
        named = [self.type_of(name) for name in TYPE.findall(signature)]
        return named + [target for clause in clauses for target in self.named(braced(clause), bound)]


@functools.lru_cache(None)
def source(path):
    return Source(path)


@functools.lru_cache(None)
def sources(crate):
    """the files of code of a crate, the root first"""
    return [source(os.path.relpath(path, TOP)) for path in CONTRACTS.files(os.path.join(TOP, 'crates', crate, 'src'))]


def code_path(crate, words):
    """the file of a module of code"""
    base = '/'.join(['crates', crate, 'src', *words])
    return next((path for path in (base + '.rt', base + '/mod.rt', base + '/lib.rt') if is_file(path)), None)


def declared_in(crate, words):
    """the type, the trait or the constant that a crate declares, or exports, by the last word of a path, if it is of the repository"""
    name, root = words[-1], sources(crate)[0]
    found = [file for file in sources(crate) if file.declares(name)]
    if len(found) > 1:
        path = words if words[0] == 'crate' else root.names.get(name, words)
        found = [file for file in found if file.path == code_path(crate, path[path[0] == 'crate':-1])]
        if not found:
            sys.exit('crates/%s: more than one %s' % (crate, name))
    if found:
        return Code(found[0].path, name)
    exported = root.names.get(name, [crate])
    return declared_in(exported[0], exported) if exported[0] in CRATES and exported[0] != crate else None


def code_of(crate, words, name):
    """the part of the code that definitions name by a path"""
    if words[-1] == 'TheConstants':
        words = [*words[:-1], name]
    elif words[-1] == 'TheVariants':
        words = words[:-1]
    path = code_path(crate, words[:-1])
    return Code(path, words[-1]) if path else sys.exit('crates/%s: no code of %s' % (crate, '.'.join(words)))


class Code(tuple):
    """a type, a trait or a constant of the code: its file and its name"""

    def __new__(cls, path, name):
        return super().__new__(cls, (path, name))

    def __str__(self):
        return '%s: %s' % self

    def targets(self):
        """what it names: of a type with a model the type of the model's values, otherwise fields, ghost members and contracts"""
        file, (path, name) = source(self[0]), self
        item = re.search((ITEM + r'(?:[^;{]*\{(?:.|\n)*?^\}|.*;$|[^;]*;)') % name, file.text, re.M)
        if not item:
            sys.exit('%s: no %s' % self)
        model = re.search(r'^impl\b[^{]*\bModel for %s\b(?:.|\n)*?^\}' % name, file.text, re.M)
        if model:
            return file.named(braced(model.group().partition('ghost Value =')[2]), set())
        if item.group(1) in ('const', 'static'):
            return self.fields(file, item.group().partition('=')[0])
        ghosts = re.findall(r'^\s*(?:pub )?ghost \w+(?::| =) (.*?)[;,]$', item.group(), re.M | re.S)
        found = [target for ghost in ghosts for target in file.named(ghost, {'self'})]
        return found + (self.contracts if item.group(1) == 'trait' else self.fields)(file, item.group())

    @staticmethod
    def contracts(file, text):
        lines = text.split('\n')
        functions = [(at, CONTRACTS.FUNCTION.match(line)) for at, line in enumerate(lines)]
        return [target for at, function in functions if function
                for target in file.contract(CONTRACTS.contract(lines, at, function.group(1)))]

    def fields(self, file, text):
        text = re.sub(r'^\s+[A-Z]\w*(?=\s*[({,])', '', text.partition(self[1])[2], flags=re.M)
        return [file.type_of(name) for name in TYPE.findall(text)]


@functools.lru_cache(None)
def targets(node):
    """the nodes that a node names"""
    return frozenset(node.targets()) - {None, node}


def public_contracts(crate, name):
    """what the contracts of the public functions and types of a crate name, or of that one of them"""
    shown, found = CONTRACTS.exports(sources(crate)[0].text) if sources(crate) else set(), set()
    for file in sources(crate):
        for function, text in CONTRACTS.public_functions(os.path.join(TOP, file.path), shown):
            found |= set(file.contract(text)) if name in ('', function) else set()
    return found.union(declared_in(crate, [item]) for item in shown if item and name in ('', item)) - {None}


def public_files(crate):
    """the files of public definitions of a crate"""
    folder = os.path.join(TOP, 'crates', crate, 'specs')
    found = [os.path.relpath(os.path.join(place, name), TOP) for place, _, names in os.walk(folder) for name in names]
    return [module(path) for path in sorted(found) if path.endswith('.antt') and '/specs/internal' not in path]
