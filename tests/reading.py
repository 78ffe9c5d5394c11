#!/usr/bin/env python3
"""What a reader must believe: the definitions that the contracts of the C functions and of the test load, the statements of the three demands, of the runner, of the test load and of separate bays reach.

docs/READING.md has them in a table between two marks. Without an argument this holds the page to the sources: the table is the closure and nothing more, its
numbers are the counted ones, and every name that the page puts in backquotes exists. With --write it writes the table.
"""
import glob
import os
import re
import sys

PAGE = 'docs/READING.md'
BEGIN, END = '<!-- the closure, written by tests/reading.py -->', '<!-- the end of the closure -->'
# what it is today: a request that adds a rule or a form may raise it by what it adds
MOST_LINES = 1828
# the statements to start from: a crate, its file of contracts or its module, and the names
CONTRACTS = [('fikarehu', ['fikarehu_check', 'fikarehu_load', 'fikarehu_load_separate', 'fikarehu_step', 'fikarehu_step_separate', 'fikarehu_run']), ('draw_text', ['put_lines_of_input'])]
STATEMENTS = [('demands', 'Demands', ['FirstDemand', 'SecondDemand', 'ThirdDemand']), ('run_spec', 'HouseRunner', ['HouseRunner']),
              ('draw_spec', 'TestLoad', ['TestLoad']), ('separate_bays', 'SeparateBays', ['SeparateBays'])]

WORD = re.compile(r"[^\s(){}\[\],;.:λ⌜⌝&<>=/]+|:=|\[\]")


def counted(lines):
    """Lines without blanks and comments; a number with its name is one line."""
    kept = [line for line in lines if line.strip() and not line.strip().startswith(('--', '//'))]
    return 1 if len(kept) == 2 and re.search(r' = (0x)?[0-9A-F]+$', kept[1]) else len(kept)


class Module:
    """A file of definitions: its items by name, what it brings in, and which item a constructor or a field belongs to."""

    def __init__(self, crate, name, path):
        self.crate, self.name, self.path = crate, name, path
        self.items, self.brings, self.under, self.owner = {}, {}, {}, {}
        current = None
        for line in open(path, encoding='utf-8').read().split('\n'):
            if line.startswith('use '):
                self.bring(line)
            elif line.startswith(('infix', 'pub mod ', '--')) or not line.strip():
                pass
            elif line[0] == ' ' and current:
                self.items[current].append(line)
                self.member(current, line)
            else:
                current = self.item(line, current)

    def bring(self, line):
        group = re.match(r'use (\S+)\.\{(.*)\}$', line)
        whole = re.match(r'use (\S+) as (\S+)$', line)
        if group:
            for part in group.group(2).split(', '):
                name, _, alias = part.partition(' as ')
                self.brings[alias or name] = (group.group(1), name)
        elif whole:
            self.under[whole.group(2)] = whole.group(1)

    def item(self, line, current):
        signature = re.match(r'(abbrev |unfoldable )?(pub )?(data |record )?(\S+)( [^=]*)? : ', line)
        if signature and (signature.group(3) or ' = ' not in line.split(' : ')[0]):
            current = signature.group(4)
        if current is None:
            sys.exit(f'{self.path}: a line before the first definition: {line}')
        self.items.setdefault(current, []).append(line)
        return current

    def member(self, item, line):
        first = self.items[item][0]
        if 'data ' in first or 'record ' in first:
            names = re.match(r'  (?:pub )?([^:]+?) : ', line)
            if names:
                for name in names.group(1).split():
                    self.owner[name] = item


class Sources:
    """All files of definitions, found when they are first asked for."""

    def __init__(self):
        self.modules = {}

    def module(self, crate, name):
        key = (crate, name)
        if key not in self.modules:
            path = f'crates/{crate}/specs/{name.replace(".", "/")}.antt'
            self.modules[key] = Module(crate, name, path) if os.path.exists(path) else None
        return self.modules[key]

    @staticmethod
    def parts(path):
        """The crate and the module that a path of a `use` line names; of a declared type, the type."""
        match = re.match(r'Rattle\.(\w+)\.specs\.(.*)$', path)
        return match.groups() if match and os.path.isdir(f'crates/{match.group(1)}') else None


def declared(crate, name):
    """The lines of a type that the code declares."""
    for path in glob.glob(f'crates/{crate}/src/*.rt'):
        text = open(path, encoding='utf-8').read()
        match = re.search(r'^(?:#\[[^\n]*\]\n)*pub (?:struct|enum) %s \{.*?^\}' % name, text, re.M | re.S)
        if match:
            return [line for line in match.group(0).split('\n') if not line.startswith('#[derive(')]
    sys.exit(f'{crate} declares no {name}')


def contract(crate, function):
    """The `ensures` lines of a function, and the file's ghost imports as a module."""
    text = open(f'crates/{crate}/src/lib.rt', encoding='utf-8').read()
    match = re.search(r'^pub (?:extern "C" )?fn %s\(.*?^\{' % function, text, re.M | re.S)
    if not match:
        sys.exit(f'{crate} has no {function}')
    return match.group(0).split('\n')[:-1], text


class Closure:
    def __init__(self):
        self.sources, self.reached, self.types, self.clauses = Sources(), {}, {}, {}

    def start(self):
        for crate, functions in CONTRACTS:
            for function in functions:
                lines, text = contract(crate, function)
                self.clauses[(crate, function)] = lines
                ghost = Module.__new__(Module)
                ghost.crate, ghost.brings, ghost.under, ghost.items, ghost.owner = crate, {}, {}, {}, {}
                for line in text.split('\n'):
                    if line.startswith('ghost use '):
                        ghost.bring(line[len('ghost '):].rstrip(';'))
                for line in lines:
                    self.follow(ghost, line)
                for name in re.findall(r'-> ([A-Z]\w+)', ' '.join(lines)):
                    self.result(crate, text, name)
        for crate, module, names in STATEMENTS:
            for name in names:
                self.reach(crate, module, name)

    def result(self, crate, text, name):
        brought = re.search(r'^use (\w+)::%s;' % name, text, re.M)
        self.declare(brought.group(1) if brought else crate, name)

    def declare(self, crate, name):
        if (crate, name) not in self.types:
            self.types[(crate, name)] = declared(crate, name)

    def reach(self, crate, module, name):
        key = (crate, module, name)
        if key in self.reached:
            return
        home = self.sources.module(crate, module)
        if home is None:
            return
        name = name if name in home.items else home.owner.get(name)
        key = (crate, module, name)
        if name is None or key in self.reached:
            return
        self.reached[key] = home.items[name]
        for line in home.items[name]:
            self.follow(home, line)

    def follow(self, home, line):
        if line.strip().startswith('--'):
            return
        for qualifier, name in re.findall(r"(?<![\w.])(\w+)\.([\w'-]+)", line):
            if qualifier in home.under:
                self.bring((home.under[qualifier], name))
        for token in WORD.findall(line):
            if token in home.items or token in home.owner:
                self.reach(home.crate, home.name, token)
            elif token in home.brings:
                self.bring(home.brings[token])
            else:
                self.operator(home, token)

    def operator(self, home, token):
        """A token that is a part of an operator's name, as ⊢ of ◌∣◌∣◌⊢◌∶◌."""
        for name in home.items:
            if '◌' in name and token in name.split('◌'):
                self.reach(home.crate, home.name, name)
        for name, source in home.brings.items():
            if '◌' in name and token in name.split('◌'):
                self.bring(source)

    def bring(self, source):
        path, name = source
        parts = Sources.parts(path)
        if parts is None:
            return
        crate, module = parts
        if module.startswith('declared.'):
            self.declare(crate, module.split('.')[1])
        else:
            self.reach(crate, module, name)

    def table(self):
        """Lines of the page: a row for each file, in the order of the crates, with the lines counted and the names."""
        crates = [line.split(':')[0].split()[0] for line in open('crates.txt', encoding='utf-8') if re.match(r'\w+[^:#]*:', line)]
        rows, total = [], 0
        for crate in crates:
            files = {}
            for (home, module, name), lines in self.reached.items():
                if home == crate:
                    files.setdefault(module, []).append((name, counted(lines)))
            for (home, name), lines in self.types.items():
                if home == crate:
                    files.setdefault('src/lib.rt', []).append((name, counted(lines)))
            for (home, name), lines in self.clauses.items():
                if home == crate:
                    files.setdefault('src/lib.rt', []).append((name, counted(lines)))
            for module in sorted(files, key=lambda file: self.turn(crate, file)):
                names = files[module]
                lines = sum(n for _, n in names)
                total += lines
                rows.append((crate, module, lines, ', '.join(f'`{n}`' for n, _ in sorted(names, key=lambda x: self.place(crate, module, x[0])))))
        head = [f'{total} lines without comments and imports, counted.', '', '| Crate | File | Lines | Definitions |', '|---|---|---|---|']
        return head + [f'| `{c}` | `{m}` | {n} | {d} |' for c, m, n, d in rows], total

    @staticmethod
    def turn(crate, module):
        """Where a file stands among those of its crate: as specs/Lib.antt lists them, and the code last."""
        order = re.findall(r'^pub mod (\S+)', open(f'crates/{crate}/specs/Lib.antt', encoding='utf-8').read(), re.M)
        return order.index(module) if module in order else len(order)

    def place(self, crate, module, name):
        home = self.sources.module(crate, module)
        return list(home.items).index(name) if home and name in home.items else 0


def known_names():
    """Every name that a file of the repository declares: items, constructors, fields, functions, types, crates, modules."""
    names = set()
    for path in glob.glob('crates/*/specs/**/*.antt', recursive=True) + glob.glob('crates/*/proofs/**/*.antt', recursive=True):
        names.add(os.path.basename(path)[:-5])
        for line in open(path, encoding='utf-8'):
            match = re.match(r'\s*(?:abbrev |unfoldable )?(?:pub )?(?:data |record |mod )?([^=:]+?)(?: :|$)', line)
            if match:
                names.update(match.group(1).split())
    for path in glob.glob('crates/*/src/*.rt'):
        text = open(path, encoding='utf-8').read()
        names.update(re.findall(r'\b(?:fn|struct|enum|const|impl) (\w+)', text) + re.findall(r'\bpub (\w+):', text))
    names.update(os.path.basename(p) for p in glob.glob('crates/*'))
    return names


def check_names(page):
    names, bad = known_names(), []
    for quoted in re.findall(r'`([^`]+)`', page):
        if '/' in quoted or '*' in quoted or quoted.endswith(('.py', '.md', '.txt', '.h')):
            if not glob.glob(quoted) and not glob.glob('crates/' + quoted) and not re.match(r'src/|specs/|proofs/', quoted):
                bad.append(quoted)
            continue
        for word in re.findall(r"[A-Za-z][\w'-]*(?:-[\w']+)*", quoted):
            if word not in names and len(word) > 2:
                bad.append(f'{quoted} ({word})')
                break
    return bad


def main():
    os.chdir(os.path.join(os.path.dirname(os.path.abspath(__file__)), '..'))
    closure = Closure()
    closure.start()
    table, total = closure.table()
    page = open(PAGE, encoding='utf-8').read()
    before, _, rest = page.partition(BEGIN)
    _, _, after = rest.partition(END)
    if not after:
        sys.exit(f'{PAGE} has no marks for the table')
    whole = before + BEGIN + '\n' + '\n'.join(table) + '\n' + END + after
    if '--write' in sys.argv:
        open(PAGE, 'w', encoding='utf-8').write(whole)
    elif whole != page:
        sys.exit(f'{PAGE}: the table is not the closure of contracts and demands as it stands; tests/reading.py --write writes it')
    if MOST_LINES < total:
        sys.exit(f'{PAGE}: {total} lines are to be read, more than {MOST_LINES}')
    bad = check_names(before + after)
    if bad:
        sys.exit(f'{PAGE}: no such name: ' + '; '.join(bad))


main()
