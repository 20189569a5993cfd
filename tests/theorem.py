#!/usr/bin/env python3
"""Writes what each command's headline says, to the last word, as one text to be read from top to bottom.

    python3 tests/theorem.py            writes docs/theorem/NAME.txt for each sheet below
    python3 tests/theorem.py --check    says which of them are not what it would write, and ends with 1 if one isn't

A sheet has the clauses of the top call, how they are read, a table of contents, the words that they name, and then every
word that these need, each file after those that it needs, with the Rust types before the first word or type that names
them. How notations and the kit's words are read is taken from docs/THEOREM.md, and the check says if a word is missing
there. It goes by names, as imports give them, and
proves nothing: that the clauses hold is what `rt ci` shows. Run it at the top of the repository."""
import os
import re
import sys

SHEETS = {  # sheet: file of the call, call, clauses
    'run': ('weaver_top/src/top_call.rt', 'weave', ['right_report']),
    'trace': ('weaver_top/src/top_call.rt', 'weave', ['traced']),
    'check': ('weaver_top/src/top_call.rt', 'weave', ['yes', 'no']),
    'load': ('weaver_top/src/top_call.rt', 'weave', ['loaded']),
    'keep': ('weave_keep/src/top_call.rt', 'weave_kept', ['keep_kept', 'keep_any_moment']),
}
FOLDER = 'docs/theorem'
PAGE = 'docs/THEOREM.md'
WIDTH = 100

IMPORT = re.compile(r'\s*(?:pub )?(?:ghost )?use Rattle\.([\w.]+?)(?:\.\{(.*)\})?(?: as (\w+))?;?\s*$')
HEAD = re.compile(r'\s*(?:abbrev |unfoldable )?pub (?:record |data )?(\w+)')
WORD = re.compile(r'[A-Za-z_]\w*')
FILES = {}


def target(module):
    """What an imported path is: a file of definitions, a type, or the kit's."""
    parts = module.split('.')
    if not os.path.isdir(f'crates/{parts[0]}') or len(parts) < 3 or parts[1] != 'specs':
        return ('kit', module)
    if parts[2] == 'declared':
        return ('type', parts[0], [part for part in parts[3:] if part != 'TheVariants'])
    return ('file', f'crates/{parts[0]}/specs/{"/".join(parts[2:])}.antt')


def add_import(imports, line):
    """Takes the names of a line that imports some; answers whether it is one."""
    found = IMPORT.match(line)
    if not found:
        return False
    module, names, alias = found.groups()
    for name in (names or '').split(','):
        name, _, other = name.strip().partition(' as ')
        if name:
            imports[other or name] = (target(module), name)
    if alias:
        imports[alias] = (target(module), None)
    return True


def load(path):
    """The imports of a file of definitions, and its blocks by the word that each defines."""
    if path in FILES:
        return FILES[path]
    imports, blocks, block = {}, {}, []
    for line in open(path).read().split('\n') + ['']:
        if add_import(imports, line):
            continue
        if line.strip():
            block.append(line)
        elif block:
            names = [head.group(1) for head in map(HEAD.match, block) if head]
            if names:
                blocks[names[0]] = block
            block = []
    FILES[path] = (imports, blocks)
    return FILES[path]


class Sheet:
    """The words that some words need: by file, each file after those that it needs."""

    def __init__(self):
        self.words, self.types, self.kit = {}, {}, {}

    def add_named(self, path, imports, one):
        """Takes a word that a text names, if it is imported; `path` is the file in which it is named."""
        where, name = imports[one]
        if where[0] == 'file' and name:
            self.add(where[1], name)
        elif where[0] == 'type':
            self.types.setdefault(path, set()).add((where[1], '/'.join(where[2][:-1]), where[2][-1]))
        elif where[0] == 'kit' and name:
            self.kit.setdefault(where[1], set()).add(name)

    def add(self, path, word):
        if word in self.words.get(path, ()):
            return
        imports, blocks = load(path)
        if word not in blocks:
            if word in imports:
                self.add_named(path, imports, word)
            return
        self.words.setdefault(path, set()).add(word)
        code = '\n'.join(line.split('--')[0] for line in blocks[word])
        for one in WORD.findall(code):
            if one in blocks:
                self.add(path, one)
            elif one in imports:
                self.add_named(path, imports, one)

    def in_order(self):
        """The files, each after those that its words need."""
        done, order = set(), []

        def put(path):
            if path in done:
                return
            done.add(path)
            imports, blocks = load(path)
            needed = []
            for word in blocks:
                if word in self.words[path]:
                    code = '\n'.join(line.split('--')[0] for line in blocks[word])
                    needed += [imports[one][0][1] for one in WORD.findall(code)
                               if one not in blocks and one in imports and imports[one][0][0] == 'file']
            for one in needed:
                if one in self.words:
                    put(one)
            order.append(path)

        for path in list(self.words):
            put(path)
        return order


def declared(crate, path, name):
    """The lines that declare a type, with its comment."""
    file = f'crates/{crate}/src/{path}.rt'
    lines = open(file).read().split('\n')
    for at, line in enumerate(lines):
        if re.match(rf'\s*pub(?:\(crate\))? (?:struct|enum) {name}\b', line):
            first = last = at
            while first and re.match(r'\s*(///|#\[)', lines[first - 1]):
                first -= 1
            indent = re.match(r'\s*', line).group()
            while not line.endswith(';') and lines[last] != indent + '}':
                last += 1
            return [f'// {file}'] + lines[first:last + 1]
    sys.exit(f'{file}: no type {name}')


def module_of(crate, name):
    """The module from which a crate re-exports a name."""
    for module, names in re.findall(r'pub use (\w+)::\{?([^};]*)\}?;', open(f'crates/{crate}/src/lib.rt').read()):
        if name in [one.strip() for one in names.split(',')]:
            return module
    return None


def is_type(crate, module, name):
    file = f'crates/{crate}/src/{module}.rt'
    return os.path.isfile(file) and re.search(rf'pub (?:struct|enum) {name}\b', open(file).read())


def clauses_of(file, call, names):
    """The clauses of a call, as they are written, and the imports of its file."""
    text = open(f'crates/{file}').read()
    imports = {}
    for line in text.split('\n'):
        add_import(imports, line)
        used = re.match(r'use (\w+)::(?:(\w+)::)?\{?([^}]*)\}?;', line)
        crate = file.split('/')[0] if used and used.group(1) == 'crate' else used and used.group(1)
        for name in used.group(3).split(',') if used and os.path.isdir(f'crates/{crate}') else ():
            name = name.strip()
            module = used.group(2) or module_of(crate, name)
            if name[:1].isupper() and module and is_type(crate, module, name):
                imports[name] = (('type', crate, [module, name]), name)
    body = re.search(rf'^pub fn {call}\b.*?^{{', text, re.M | re.S).group()
    found = []
    for name in names:
        clause = re.search(rf'^    ensures {name} \{{.*?\}}$', body, re.M | re.S)
        if not clause:
            sys.exit(f'{file}: {call} has no clause {name}')
        found.append(clause.group())
    return found, imports


def members(file, call, clauses):
    """The ghost members of the traits of the call's parameters that its clauses name, as they are declared."""
    text = open(f'crates/{file}').read()
    header = re.search(rf'^pub fn {call}<(.*?)>\(', text, re.M | re.S).group(1)
    bounds = dict(re.findall(r'(\w+): (\w+)', header))
    out = []
    for letter, trait in bounds.items():
        names = re.findall(rf'\b{letter}\.(\w+)', '\n'.join(clauses))
        crate = re.search(rf'use (\w+)::\{{?[^}};]*\b{trait}\b', text)
        module = crate and os.path.isdir(f'crates/{crate.group(1)}') and module_of(crate.group(1), trait)
        if not names or not module:
            continue
        path = f'crates/{crate.group(1)}/src/{module}.rt'
        lines = open(path).read().split('\n')
        out += ['', f'// {path}: ghost members of the trait {trait} ({letter})']
        for at, line in enumerate(lines):
            found = re.match(r'\s*ghost (\w+):', line)
            if found and found.group(1) in names:
                first = at
                while lines[first - 1].strip().startswith('//'):
                    first -= 1
                out += lines[first:at + 1]
    return out


def wrapped(words, indent=''):
    """Words in lines of the width; all lines but the first begin with the indent."""
    lines, line = [], ''
    for word in words:
        if line and len(line) + 1 + len(word) > WIDTH:
            lines.append(line)
            line = indent
        line = f'{line} {word}' if line else word
    return lines + [line]


def sheet(name):
    """The text of a sheet, and the kit's words in it."""
    file, call, clauses = SHEETS[name]
    found, imports = clauses_of(file, call, clauses)
    made, first = Sheet(), []
    for word in WORD.findall('\n'.join(found)):
        if word in imports:
            where, inside = imports[word]
            if where[0] == 'file' and (where[1], inside) not in first:
                first.append((where[1], inside))
            made.add_named('', imports, word)
    heads = {}
    for path, word in first:
        heads.setdefault(path, []).append(word)
    shown, types, out = {}, [], []
    every_type = {key for keys in made.types.values() for key in keys}

    def show_type(key):
        """A type after those that it names."""
        if key in types:
            return
        types.append(key)
        lines = declared(*key)
        code = '\n'.join(line.split('//')[0] for line in lines[1:])
        for one in WORD.findall(code):
            for other in sorted(it for it in every_type if it[2] == one):
                show_type(other)
        out.extend(['', *lines])

    def show(path, words):
        imports, blocks = load(path)
        for key in sorted(made.types.get(path, ())):
            show_type(key)
        out.extend(['', f'==== {path}'])
        for word, block in blocks.items():
            if word in words:
                out.extend([''] + block)
        shown.setdefault(path, set()).update(words)

    out += members(file, call, found)
    for key in sorted(made.types.get('', ())):
        show_type(key)
    for path, words in heads.items():
        show(path, set(words))
    for path in made.in_order():
        left = made.words[path] - shown.get(path, set())
        if left:
            show(path, left)
    kit = {word for words in made.kit.values() for word in words}
    count = sum(len(words) for words in made.words.values())
    out += ['', f'{count} words in {len(made.words)} files, {len(types)} types, {len(kit)} words of the kit', '']
    return '\n'.join(head(name, found, kit, out) + out), kit


def read_as(kit):
    """The page's tables as lines: notations, words of the domain, and those rows of the kit's words that a sheet needs."""
    lines = []
    for line in open(PAGE).read().split('\n# What the headline')[0].split('\n'):
        names, _, meaning = line.strip('| ').partition(' | ')
        if not line.startswith('| ') or names in ('notation', 'word', 'words'):
            continue
        words = re.findall(r'`([^`]*)`', names) or [names]
        if not all(WORD.fullmatch(word) for word in words) or kit & set(words):
            lines += wrapped([f'  {", ".join(words)}:'] + meaning.replace('`', '').split(), '      ')
    return lines


def head(name, found, kit, body):
    """What comes before the words: the clauses, how they are read, and where each file stands."""
    file, call, _ = SHEETS[name]
    text = open(f'crates/{file}').read()
    signature = re.search(rf'^pub fn {call}\b.*?(?=^    (?:requires|ensures|returns|where)\b)', text, re.M | re.S).group()
    out = [f'What `weaver {name}` promises, to the last word', '',
           f'Of `{name}` the top call in crates/{file}', '']
    words = ' '.join(line.strip() for line in signature.split('\n') if not line.strip().startswith('//')).split()
    out += wrapped(['    ' + words[0]] + words[1:], '        ')
    out += ['', 'promises:', '']
    out += [line for clause in found for line in clause.split('\n')]
    out += [''] + wrapped('What stands before the last arrow are premises: where one fails, as of another status, nothing is '
                          'promised here. Bytes are those that contracts see of a source and a sink: of streams that show none '
                          '(None) nothing is said of the bytes, and README says what is trusted of standard input and output. '
                          'That the call ends, that anything commits, or that two runs of a script give one report is no part '
                          'of it.'.split())
    out += [''] + wrapped('First come the words that the clauses name, then all that these need: each file after those that it '
                          'needs, a type before the first word or type that names it. Whoever wants the meaning first, and '
                          'grammar and texts later, begins with RightReport.antt, where IsRightReport names the eight clauses '
                          'of a right report. Requests of a script, replies and '
                          'vertices of a list are counted from 0; operations, commits, messages, places of a clause and lines '
                          'from 1. Made by tests/theorem.py from the sources and docs/THEOREM.md.'.split())
    out += ['', 'How it is read', ''] + read_as(kit) + ['', 'Where it is', '']
    files = [(at, line[5:]) for at, line in enumerate(body) if line.startswith('==== ')]
    first = len(out) + len(files) + 1
    out += [f'{first + at:6} {path}' for at, path in files]
    return out


def main():
    wrong = 0
    page = open(PAGE).read()
    kit = set()
    for name in SHEETS:
        text, words = sheet(name)
        kit |= words
        path = f'{FOLDER}/{name}.txt'
        if '--check' in sys.argv:
            if not os.path.isfile(path) or open(path).read() != text:
                wrong += 1
                print(f'{path} is not what tests/theorem.py writes')
        else:
            os.makedirs(FOLDER, exist_ok=True)
            open(path, 'w').write(text)
            print(path, text.split('\n')[-2])
    for word in sorted(kit):
        if f'`{word}`' not in page:
            wrong += 1
            print(f'{PAGE} has no line for the kit\'s `{word}`')
    print(f'{len(SHEETS)} sheets, {len(kit)} words of the kit, {wrong} wrong')
    return 1 if wrong and '--check' in sys.argv else 0


if __name__ == '__main__':
    sys.exit(main())
