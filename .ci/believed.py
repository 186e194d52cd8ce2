"""What a reader has to believe: the definitions that contracts and promises lead to.

The search begins with the contracts of the interface (docs/CONTRACTS.md, first list) and of what the programs call, and with what the tables
of docs/PROMISES.md name. A definition is a name marked `abbrev` or `unfoldable`, a `record` or a `data`: it is believed with all that its
type and its body mention. Of a law the statement alone is believed, with all that it mentions; its proof is checked. A name is
looked up as the checker looks it up: in its own file, then along the file's `use` lines, through every `pub use` and `as`, to the file that
declares it. The kit's own names and the types that the code declares end the search.

`python3 .ci/believed.py` prints the rows that docs/PROMISES.md has to have, and `python3 .ci/believed.py FILE` what is believed of a file.
"""
import glob
import os
import re
import sys

sys.dont_write_bytecode = True
from sources import base, cited_files, public_functions, read, rows, section, without_comment

LIST = '## What a reader has to believe'
KITS = {'std', 'core'}
ABOVE = {'priorities', 'logs', 'blocks', 'mulchpenny'}  # what stands on the base, and adds no call to it
WORDS = set('λ → × ¬ ⊥ let in rw at omega search cc record where Type unfolding absurd elim = : | ↦ _'.split())
USE = re.compile(r'^(unfoldable |pub |ghost )*use (\S+?)(?:\.\{(.*)\}| as (\w+))?;?$')
OURS = re.compile(r'Rattle\.(\w+)\.(specs|proofs)\.(\w+)$')
SIGNATURE = re.compile(r'((?:unfoldable |abbrev |pub )*)(record |data )?(\S+)(?: [({].*)? :(?: |$)')


class Declaration:
    """A name that a file declares. `head` is what the sections around it and its own type say, `body` what it is."""

    def __init__(self, name, defines, sections):
        self.name, self.defines, self.head, self.body = name, defines, list(sections), []

    def text(self):
        return '\n'.join(self.head + self.body if self.defines else self.head)


class Page:
    """A file: what it declares, the constructors of what it declares, and what its `use` lines bring in and pass on."""

    def __init__(self, path):
        self.path, self.declared, self.owner, self.brought, self.passed, self.modules = path, {}, {}, {}, set(), {}
        lines = [without_comment(line) for line in read(path).splitlines()]
        for line in lines:
            self.note_use(line)
        if path.endswith('.antt'):
            self.note_declarations([line for line in lines if line and not USE.match(line) and not line.startswith('infix')])

    def note_use(self, line):
        found = USE.match(line)
        if not found:
            return
        mark, module, names, alias = found.groups()
        if names is None:
            self.modules[alias or module.split('.')[-1]] = module
        for item in filter(None, (names or '').split(', ')):
            name, _, other = item.partition(' as ')
            self.brought[other or name] = (module, name)
            if mark == 'pub ':
                self.passed.add(other or name)

    def note_declarations(self, lines):
        """A declaration begins with its signature, at the left margin or two further than the `module _ (..) where` that it is in; what is
        indented more goes on with the signature, and what comes at the same indent with the body."""
        sections, current = [], None  # of the sections that are open: the indent and the text
        for line in lines:
            text, indent = line.strip(), len(line) - len(line.lstrip())
            while sections and indent <= sections[-1][0]:
                sections.pop()
            margin = sections[-1][0] + 2 if sections else 0
            found = SIGNATURE.match(text)
            if indent == margin and text.startswith('module '):
                sections.append((indent, text))
                current = None
            elif indent == margin and found:
                marks, kind, name = found.groups()
                current = Declaration(name, bool(kind or 'abbrev' in marks or 'unfoldable' in marks), [text for _, text in sections])
                self.declared[name], part = current, current.head
                part.append(text)
            elif current is None:
                sections[-1:] = [(at, head + ' ' + text) for at, head in sections[-1:]]
            else:
                part = current.body if indent == margin or kind else part
                part.append(text if indent == margin else ' ' + text)
                if kind == 'data ' and found:
                    self.owner[found.group(3)] = current.name


def bound(text):
    """The names that a text binds itself: parameters, what λ and let name, a record's fields, the left sides of clauses."""
    groups = re.findall(r'[({]([^(){}:=]+) : ', text) + re.findall(r'λ ([^.()]+)\.', text) + re.findall(r'\blet ([^=]+?)(?: :| =)', text)
    groups += re.findall(r'^ pub (\S+) :', text, re.M)
    for left in re.findall(r'^(\S.*?) =(?: |$)', text, re.M):
        groups.append(re.sub(r'[(){},]', ' ', left))
    return {name for group in groups for name in group.split()}


def mentioned(text):
    """The words of a text that may be names of something else. A field that is asked for (`).name`) or given (`name = `) is none."""
    plain = re.sub(r'\S+ = ', ' ', re.sub(r'(?<=[)\s])\.\w[\w-]*', ' ', text))
    words = {word.rstrip('.') for word in re.split(r'[\s(){},;⌜⌝]+', plain)}
    return words - WORDS - bound(text)


def is_ours(module):
    ours = re.match(r'Rattle\.(\w+)\.', module)
    return bool(ours) and ours.group(1) not in KITS


def file_of(module):
    """The file that a module of ours is; nothing for the kit's modules and for the types that the code declares."""
    ours = OURS.match(module)
    return f'crates/{ours.group(1)}/{ours.group(2)}/{ours.group(3)}.antt' if ours and is_ours(module) else None


class Search:
    """What is believed: of each file the definitions, and of each law the lines of its statement."""

    def __init__(self):
        self.pages, self.seen, self.definitions, self.statements, self.faults = {}, set(), {}, {}, []

    def page(self, path):
        if path not in self.pages:
            self.pages[path] = Page(path)
            if '*' in self.pages[path].modules:
                self.faults.append(f'{path} brings in names with `*`, which cannot be followed')
        return self.pages[path]

    def text(self, page, text, own=''):
        for word in mentioned(text) - {own}:
            head, dot, rest = word.partition('.')
            module, _, last = word.rpartition('.')
            if dot and head in page.modules:
                self.name(file_of(page.modules[head]), rest.split('.')[0])
            if file_of(module):
                self.name(file_of(module), last)
            for name in [*page.declared, *page.owner, *page.brought]:
                if head == name or head and '◌' in name and head in name.split('◌'):
                    self.name(page.path, name)

    def name(self, path, name):
        """The declaration that a name means in a file."""
        if path is None:
            return
        page = self.page(path)
        name = page.owner.get(name, name)
        if name in page.declared:
            self.declaration(page, page.declared[name])
        elif name in page.brought:
            module, original = page.brought[name]
            if name in page.passed and (original != name or not is_ours(module)):
                self.definitions.setdefault(path, set()).add(name)  # it says what the name means: the kit's word, or another one of ours
            self.name(file_of(module), original)
        else:
            self.faults.append(f'{path} has no {name}, which is believed')

    def declaration(self, page, declaration, cited=False):
        key = (page.path, declaration.name)
        if not declaration.defines and not cited:
            self.faults.append(f'{page.path}: {declaration.name} is mentioned by what is believed, and is not marked as a definition')
        if key in self.seen:
            return
        self.seen.add(key)
        if declaration.defines:
            self.definitions.setdefault(page.path, set()).add(declaration.name)
        else:
            self.statements[key] = len(declaration.head)
        self.text(page, declaration.text(), declaration.name)


def called_by_programs():
    """The functions that a program of ours calls, but for the trials: who runs it relies on their contracts."""
    text = '\n'.join(read(path) for path in glob.glob('crates/*/src/main.rt') if 'crates/trial' not in path)
    return set(re.findall(r'\b([a-z_]+(?:::\w+)+)\(', text))


def search():
    found = Search()
    interface = set(re.findall(r'`([a-z_]+(?:::\w+)+)`', section(read('docs/CONTRACTS.md'), '## Interface'))) | called_by_programs()
    for function in public_functions():
        if function.name in interface:
            found.text(found.page(function.path), function.contract)
    for cells in rows(read('docs/PROMISES.md').partition(LIST)[0]):
        for path in cited_files(cells[2]) if len(cells) == 3 else []:
            page = found.page(path)
            for name in set(re.findall(r'`([\w-]+)`', cells[1])):
                if name in page.declared:
                    found.declaration(page, page.declared[name], cited=True)
                elif name in page.passed:
                    found.name(path, name)
    return found


def to_read(path):
    """The lines of a file that are neither blank nor `use`."""
    return sum(1 for line in read(path).splitlines() if line.strip() and not USE.match(line))


def part_of(path, of_base):
    crate = path.split('/')[1]
    if crate in ABOVE:
        return 'sorted rows, a saved log, and the program'
    return 'the base' if crate in of_base else 'the reader of AADL texts'


def parts(found):
    """The parts of the list, the base first: a name, the files of definitions, and the lines of each statement."""
    of_base = base()
    for label in ('the base', 'sorted rows, a saved log, and the program', 'the reader of AADL texts'):
        files = [path for path in found.definitions if part_of(path, of_base) == label]
        yield label, files, [lines for (path, _), lines in found.statements.items() if part_of(path, of_base) == label]


def totals(found):
    """The rows that sum up the list."""
    for label, files, laws in parts(found):
        lines = sum(len(read(path).splitlines()) for path in files)
        of_them = f'{sum(map(to_read, files))} of them to be read, the rest blank or `use`'
        yield f'| {label}, {len(files)} files | {lines} | {of_them}; and {len(laws)} statements, {sum(laws)} lines |'


def faults(most_of_base):
    """Where the list of docs/PROMISES.md differs from what is found, and whether the base has more lines to read than it may."""
    found, page = search(), section(read('docs/PROMISES.md'), LIST)
    listed = dict(re.findall(r'^\| (crates/\S+\.antt) \| (\d+) \|', page, re.M))
    yield from found.faults
    for path in sorted(set(found.definitions) - set(listed)):
        yield f'docs/PROMISES.md does not list {path}: {", ".join(sorted(found.definitions[path])[:6])}'
    for path in sorted(set(listed) - set(found.definitions)):
        yield f'docs/PROMISES.md lists {path}, of which nothing has to be believed'
    for path in sorted(set(listed) & set(found.definitions)):
        if len(read(path).splitlines()) != int(listed[path]):
            yield f'docs/PROMISES.md: {path} does not have {listed[path]} lines'
    for row in totals(found):
        if row not in page:
            yield f'docs/PROMISES.md has to say: {row}'
    lines = sum(map(to_read, next(parts(found))[1]))
    if most_of_base and lines > most_of_base:
        yield f'of the base {lines} lines have to be believed, over {most_of_base}'


if __name__ == '__main__':
    os.chdir(os.path.join(os.path.dirname(os.path.abspath(__file__)), '..'))
    result = search()
    for path in sys.argv[1:] or sorted(result.definitions):
        names = sorted(result.definitions.get(path, []))
        print(f'| {path} | {len(read(path).splitlines())} | {", ".join(names) if sys.argv[1:] else len(names)} |')
    print('\n'.join(totals(result)))
