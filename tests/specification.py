#!/usr/bin/env python3
"""Checks docs/inside/specification against a repository: every file, word, function, law, proof, test and edit that its
pages name; the paths that other pages name; that crates are listed alike; and each word in backticks in a comment of a
crate, its heads among them.
Usage: specification.py [root of the repository [the folder]]"""
import glob, os, re, sys
ROOT = sys.argv[1] if len(sys.argv) > 1 else '.'
PAGE = sys.argv[2] if len(sys.argv) > 2 else f'{ROOT}/docs/inside/specification'
CR = os.path.join(ROOT, 'crates')
errors, counts = [], {}
def err(row, what): errors.append(f'{row}: {what}')
def count(k, n=1): counts[k] = counts.get(k, 0) + n
_cache = {}
def read(p):
    if p not in _cache: _cache[p] = open(p).read() if os.path.isfile(p) else None
    return _cache[p]

def word_defined(text, w):
    w = re.escape(w)
    return re.search(rf'^\s*(?:abbrev|unfoldable) pub {w} :', text, re.M) or \
           re.search(rf'^\s*pub (?:record|data) {w}\b', text, re.M)
def fn_defined(text, n):
    n = re.escape(n)
    return re.search(rf'\bfn {n}\b', text) or re.search(rf'\b(?:struct|enum|trait) {n}\b', text)
def law_defined(text, n):
    m = re.search(rf'^pub fn {re.escape(n)}(?:<[^>]*>)?\(\)\n((?:    .*\n)*)\{{', text, re.M)
    return bool(m) and 'ensures' in m.group(1)
def begins_line(text, n):
    """Whether a line of a file of cases begins with these words; what a table can't have in a name is left out of them."""
    return any(line.translate(str.maketrans({'`': None, ';': ',', '|': '/'})).startswith(n) for line in text.split('\n'))
def is_test(text, n):
    return re.search(rf'#\[test\]\n(?:#\[[^\n]*\n)*(?:pub )?fn {re.escape(n)}\(', text)
def lemma_defined(text, n):
    return re.search(rf'^\s*(?:abbrev |unfoldable )?(?:pub )?{re.escape(n)} :', text, re.M) or re.search(rf'record {re.escape(n)}\b', text)

def entries(found, kind):
    """The entries of a kind; it counts the rules that have none, and those whose proof is found by search."""
    if not found: count(f'{kind}: none')
    return [it for it in found if it != ('search', [])]
def look_up(row, path, names, kind, at, is_there, what):
    """Looks the names up in the file of the repository, and returns whether there is such a file."""
    t = read(at)
    if t is None:
        err(row, f'no file {at}')
        return False
    if not names and kind not in ('lemmas', 'headings of cases'): err(row, f'no {what} named of {path}')
    for n in names:
        count(kind)
        if not is_there(t, n): err(row, f'no {what} {n} in {at}')
    return True

def check_definition(row, found):
    for path, names in entries(found, 'definition'):
        c, _, f = path.partition('/')
        if look_up(row, path, names, 'words', f'{CR}/{c}/specs/{f}.antt', word_defined, 'word'): count('definition files')
def check_code(row, found):
    for path, names in entries(found, 'function'):
        c, _, f = path.partition('/')
        if re.search(r'(^|_|/)tests?\.rt$', f) or c.endswith('_tests'): err(row, f'a file of tests as code: {path}')
        if look_up(row, path, names, 'functions and types', f'{CR}/{c}/src/{f}', fn_defined, 'function'): count('code files')
def check_proof(row, found):
    for path, names in entries(found, 'proof'):
        c, _, f = path.partition('/')
        if f.endswith('.rt'):
            if 'laws' not in f: err(row, f'no file of laws: {path}')
            look_up(row, path, names, 'laws', f'{CR}/{c}/src/{f}', law_defined, 'law')
            for n in names:
                if not os.path.isdir(f'{CR}/{c}/proofs/{f[:-3]}/{n}'): err(row, f'no proof folder {c}/proofs/{f[:-3]}/{n}')
        else:
            if not f.startswith('proofs/'): err(row, f'no file of proofs: {path}')
            if look_up(row, path, names, 'lemmas', f'{CR}/{c}/{f}.antt', lemma_defined, 'lemma'): count('proof files')
def check_test(row, found):
    for path, names in entries(found, 'test'):
        c, _, f = path.partition('/')
        if f.endswith('.cases'):
            look_up(row, path, names, 'headings of cases', f'{CR}/{c}/data/{f}', begins_line, 'heading')
        elif f == 'stdin':
            look_up(row, path, [f'% {it}' for it in names], 'headings of cases', f'{CR}/{c}/stdin', begins_line, 'heading')
        else:
            look_up(row, path, names, 'tests', f'{CR}/{c}/src/{f}', is_test, 'test')
reached = set()
def edit_at(c, n):
    """A planted bug that the gate tries, or one that tests/planted.py alone tries."""
    return next((p for p in (f'{CR}/{c}/must-fail/{n}.{e}' for e in ('edit', 'md')) if os.path.isfile(p)), None)
def check_edits(row, found):
    for c, names in entries(found, 'edits'):
        if not os.path.isdir(f'{CR}/{c}/must-fail'): err(row, f'no edits in {c}'); continue
        if not names: err(row, f'no edit named of {c}')
        for n in names:
            count('edits named'); reached.add((c, n))
            if not edit_at(c, n): err(row, f'no edit {c}/must-fail/{n}')

def check_edit_files(row, found):
    """The file that an edit changes is one of those that the rule names as definition, code or law."""
    named = {(p.split('/')[0], f"specs/{p.split('/', 1)[1]}.antt") for p, _ in found[0] if '/' in p}
    for i in (1, 2):
        named |= {(p.split('/')[0], f"src/{p.split('/', 1)[1]}") for p, _ in found[i] if p.endswith('.rt')}
    for c, names in found[4]:
        for n in names:
            t = read(edit_at(c, n) or '') or ''
            files = set(re.findall(r'^file: (\S+)', t, re.M))
            count('edits whose file the rule names')
            if not any((c, f) in named for f in files): err(row, f'edit {c} {n} changes {sorted(files)}, which the rule does not name')

LABELS = {'definition': 0, 'code': 1, 'law, proof': 2, 'test': 3, 'edits': 4}
def named(cell):
    """The names after a path: in quotes if they are headings of cases, else words with commas between them."""
    return re.findall(r'"([^"]+)"', cell) if cell.startswith('"') else [it for it in re.split(r',\s*', cell) if it]
def blocks_of(lines, row):
    """The five kinds of entries of a rule, each a list of paths with names; `search` is a path without any."""
    found, kind = [[] for _ in LABELS], None
    for line in lines:
        label, rest = line[4:16].strip(), line[16:]
        if label:
            if label not in LABELS: err(row, f'no kind of entry is called {label}'); return found
            kind = LABELS[label]
        if kind is None: err(row, f'an entry without its kind: {line.strip()}'); return found
        if rest.startswith('  '): found[kind][-1] += ' ' + rest.strip()
        else: found[kind].append(rest.strip())
    return [[(it.partition(' ')[0], named(it.partition(' ')[2])) for it in kind] for kind in found]

norm = lambda s: re.sub(r'[^a-z0-9 ]', '', s.lower()).strip()
index = open(f'{PAGE}/README.md').read()
listed = re.findall(r'^- \[([^\]]+)\]\(([^)]+)\): (.*)$', index, re.M)
for page in glob.glob(f'{PAGE}/*.md'):
    if os.path.basename(page) not in ['README.md'] + [it[1] for it in listed]: errors.append(f'README.md lists no {os.path.basename(page)}')
text, rows, rules = index, 0, 0
for title, page, names in listed:
    body = read(f'{PAGE}/{page}')
    if body is None: errors.append(f'README.md: no page {page}'); continue
    text += body
    if body.split('\n')[0] != f'# {title}': errors.append(f'{page}: its title is another one than in README.md')
    for other in re.findall(r'\]\(([^)#]+\.md)\)', body):
        if not os.path.isfile(f'{PAGE}/{other}'): errors.append(f'{page}: no page {other}')
    parts = re.split(r'^## ', body, flags=re.M)[1:]
    heads = [part.split('\n', 1)[0] for part in parts]
    rules += len(heads)
    if not heads: errors.append(f'{page}: no rules')
    if [norm(it) for it in names.split('; ')] != [norm(it) for it in heads]: errors.append(f'{page}: README.md lists other rules')
    if len(set(map(norm, heads))) != len(heads): errors.append(f'{page}: two rules have one name')
    for head, part in zip(heads, parts):
        pieces = re.split(r'^### ', part, flags=re.M)
        if not [line for line in pieces[0].split('\n')[1:] if line.strip() and not line.startswith('    ')]: errors.append(f'{page} / {head}: no words')
        before = rows
        for at, piece in enumerate(pieces):
            row = f'{title} / {head}' if at == 0 else f'{title} / {head}: ' + piece.split('\n', 1)[0]
            lines = [line for line in piece.split('\n') if line.startswith('    ')]
            if not lines: continue
            rows += 1
            entries_of = blocks_of(lines, row)
            check_definition(row, entries_of[0]); check_code(row, entries_of[1]); check_proof(row, entries_of[2])
            check_test(row, entries_of[3]); check_edits(row, entries_of[4]); check_edit_files(row, entries_of)
            if not entries_of[0] and not entries_of[1]: err(row, 'neither definition nor function')
        if rows == before: errors.append(f'{page} / {head}: it names nothing')
# every word in backticks is somewhere in the repository
alltext = ''.join(open(p).read() for e in ('antt', 'rt') for p in glob.glob(f'{CR}/**/*.{e}', recursive=True) if '/out/' not in p)
basenames = {os.path.splitext(os.path.basename(p))[0] for e in ('antt', 'rt', 'edit') for p in glob.glob(f'{CR}/**/*.{e}', recursive=True)}
tokens = set(re.findall(r'\w+', alltext))
# a name of the paper on the timeline oracle, and the word that stands for a rule's name
OUTSIDE = {'assign_order', 'rule: part'}
def known(w):
    if w in OUTSIDE or w in basenames or w in tokens: return True
    if not re.fullmatch(r'\w+', w) and re.search(rf'(?<!\w){re.escape(w)}(?!\w)', alltext): return True
    # a line of a script or report, with letters for its fields
    if re.fullmatch(r'\w+( [A-Z])+', w): return known(w.split()[0])
    if os.path.exists(f'{CR}/{w}') or os.path.exists(f'{ROOT}/{w}') or os.path.exists(f'{CR}/{w}.antt'): return True
    c, _, f = w.partition('/')
    if os.path.exists(f'{CR}/{c}/specs/{f}.antt') or os.path.exists(f'{CR}/{c}/src/{f}'): return True
    if '::' in w: return all(known(x) for x in w.split('::'))
    return False
for line in re.sub(r'^(\||    ).*$', '', text, flags=re.M).split('\n'):
    for w in re.findall(r'`([^`]+)`', line):
        count('words in prose')
        if not known(w): print(f'note: nothing in the repository is called `{w}`')
alle = {(p.split('/')[-3], os.path.splitext(os.path.basename(p))[0]) for p in glob.glob(f'{CR}/*/must-fail/*')}
print(f'{rules} rules, {rows} with their parts, on {len(listed)} pages')
# pages whose paths are looked up, each with the crate that a path is of if its line names none
PAGES = {'ARCHITECTURE.md': '', 'ARGUMENT.md': '', 'CHANGING.md': '', 'DECISIONS.md': '', 'FORMATS.md': '', 'KEEP.md': '',
         'PROOF-NOTES.md': '', 'inside/ACCOUNT.md': '', 'inside/CHRONICLE.md': 'chronicle', 'inside/DRIVING.md': '',
         'inside/PROVED.md': '', 'inside/REPLICAS.md': '', 'inside/SEEN.md': 'seen_logs'}
def check_paths(page):
    """Each path of a page: of a crate that its line names, by itself or at the head of a path, or of the repository."""
    for number, line in enumerate((read(f'{ROOT}/docs/{page}') or '').split('\n'), 1):
        spans = re.findall(r'`([\w./-]+)`', line)
        crates = [it for span in spans for it in span.split('/')[:2] if os.path.isdir(f'{CR}/{it}')] or [PAGES[page]]
        for path in spans:
            if not re.search(r'\w/\w', path) or path.startswith(('/', 'out/', 'target/')) or 'NAME' in path: continue
            count('paths of pages')
            head, _, rest = path.partition('/')
            places = [f'{ROOT}/{path}', f'{CR}/{path}']
            places += [f'{CR}/{it}/{part}{path}' for it in crates for part in ('', 'src/', 'specs/', 'proofs/')]
            places += [f'{CR}/{head}/{part}/{rest}' for part in ('src', 'specs', 'proofs')]
            if not any(os.path.exists(it + end) for it in places for end in ('', '.antt', '.rt')):
                err(f'{page}:{number}', f'no path {path} in the crates that the line names')
for page in PAGES: check_paths(page)

def check_headings():
    """crates.txt, docs/ARCHITECTURE.md and README.md have the same headings, and the first two the same crates, in one order."""
    lines = [line for line in open(f'{ROOT}/crates.txt').read().split('\n')[1:] if line]
    crates = [line[2:] if line.startswith('# ') else re.match(r'\w+', line).group() for line in lines]
    section = read(f'{ROOT}/docs/ARCHITECTURE.md').split('\n## The crates')[1]
    table = re.findall(r'^(?:### (.+)|- `(\w+)`:)', section, re.M)
    if [head or crate for head, crate in table] != crates: err('ARCHITECTURE.md', 'its crates are not those of crates.txt in their order')
    block = re.search(r'^## The crates\n(.*?)^## ', read(f'{ROOT}/README.md'), re.M | re.S).group(1)
    if re.findall(r'^    (\S.*?)  +\S', block, re.M) != [line[2:] for line in lines if line.startswith('# ')]:
        err('README.md', 'its headings of crates are not those of crates.txt')
check_headings()

# words in backticks in comments. Each is in the code of its crate or of one below it, or a form of docs/FORMATS.md, or a
# path; letters for the fields of a form are all capitals. A comment is part of its crate, which is proved again with all
# above it if it changes: one that is wrong and waits for the next change of its crate is listed here
WAITING = {('gate_lock/src/lib.rt', 'IsKept')}
BELOW = {line.split(':')[0].split()[0]: line.split(':')[1].split() for line in open(f'{ROOT}/crates.txt')
         if ':' in line and not line.startswith('#')}
def at_and_below(crate, seen):
    if crate in BELOW and crate not in seen:
        seen.append(crate)
        for one in BELOW[crate]: at_and_below(one, seen)
    return seen
def code_and_comments(path):
    """A file's code, and its comments: the first line of each, and its lines."""
    sign, code, comments, before = ('//' if path.endswith('.rt') else '--'), [], [], None
    for number, line in enumerate(read(path).split('\n'), 1):
        found = re.search(rf'(?:^|(?<=\s)){sign}[/!]?(?=\s|$)(.*)$', line)
        code.append(line[:found.start()] if found else line)
        if not found: continue
        if number - 1 == before and not code[-1].strip(): comments[-1][1].append(found.group(1))
        else: comments.append((number, [found.group(1)]))
        before = number
    return '\n'.join(code), comments
def check_comments():
    files, there = {}, {}
    for crate in BELOW:
        paths = [it for end in ('rt', 'antt') for it in glob.glob(f'{CR}/{crate}/**/*.{end}', recursive=True) if '/out/' not in it]
        files[crate] = {it[len(CR) + 1:]: code_and_comments(it) for it in paths}
        there[crate] = set(re.findall(r'\w+', ' '.join(f'{it} {code}' for it, (code, _) in files[crate].items())))
        there[crate] |= {os.path.splitext(os.path.basename(it))[0] for it in glob.glob(f'{CR}/{crate}/must-fail/*')}
    forms = open(f'{ROOT}/docs/FORMATS.md').read()
    forms = set(re.findall(r'\w+', ' '.join(re.findall(r'`([^`\n]+)`', forms) + re.findall(r'^    .*$', forms, re.M))))
    left = set(WAITING)
    for crate in BELOW:
        scope = at_and_below(crate, [])
        words = forms.union(BELOW, *(there[it] for it in scope))
        for path, (_, comments) in files[crate].items():
            for first, lines in comments:
                for span in re.finditer(r'`([^`]+)`', '\n'.join(lines)):
                    count('words in comments')
                    said = ' '.join(span.group(1).split())
                    if (path, said) in WAITING: left.discard((path, said)); continue
                    if not is_said_rightly(said, scope, words):
                        err(f'{path}:{first + chr(10).join(lines)[:span.start()].count(chr(10))}', f'nothing here or below is called `{said}`')
    for path, said in left: err(path, f'`{said}` waits for nothing: take it out of the list in tests/specification.py')
def is_said_rightly(said, scope, words):
    if re.fullmatch(r'[\w./]*\w/\w[\w./]*|\w+\.(?:antt|rt|cases|md|py|sh|txt)', said):
        places = [f'{ROOT}/{said}', f'{CR}/{said}', *(f'{CR}/{it}/{part}{said}' for it in scope for part in ('', 'src/', 'specs/', 'proofs/'))]
        return any(os.path.exists(it + end) for it in places for end in ('', '.antt', '.rt'))
    alone = re.fullmatch(r'\w+', said)
    return all(it in words or it.isdigit() or re.fullmatch(r'[a-z]\d+', it) or not alone and re.fullmatch(r'[A-Z]+', it)
               for it in re.findall(r'\w+', said))
check_comments()

print('checked: ' + ', '.join(f'{v} {k}' for k, v in sorted(counts.items())))
in_gate = len(glob.glob(f'{CR}/*/must-fail/*.edit'))
print(f'edits of the repository reached from a rule: {len(reached & alle)} of {len(alle)} ({in_gate} in the gate, {len(alle) - in_gate} by tests/planted.py alone)'
      + ''.join(f'\n  not reached: {c} {n}' for c, n in sorted(alle - reached)))
for e in errors: print('WRONG', e)
print(f'{len(errors)} wrong')
sys.exit(1 if errors else 0)
