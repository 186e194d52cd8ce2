"""The sources as the checks see them: files, functions with their contracts, the rows of a page's tables, which crates are the base."""
import glob
import os
import re
from collections import namedtuple

Function = namedtuple('Function', 'name path contract')  # the full name, as docs/CONTRACTS.md has it
PROGRAMS_OF_THE_BASE = ('mulchpenny', 'trial', 'history')  # and all that they depend on; the rest is the reader of AADL texts


def read(path):
    if not os.path.exists(path):
        return ''
    with open(path, encoding='utf-8') as file:
        return file.read()


def without_comment(line):
    return re.sub(r'(^|\s)(--|//).*', '', line).rstrip()


def private(crate):
    """The crate is a program or part of the trials, which nobody calls."""
    return crate.startswith('trial') or not os.path.exists(f'crates/{crate}/src/lib.rt')


def passed_on(crate, file):
    """What a library passes on of a module that it keeps to itself; None where the module itself is public."""
    root = read(f'crates/{crate}/src/lib.rt')
    if not re.search(rf'^mod {file};', root, re.M):
        return None
    uses = re.findall(rf'^pub use (?:crate::)?{file}::(?:\{{([^}}]*)\}}|(\w+));', root, re.M)
    return {name.strip() for several, one in uses for name in (several or one).split(',')}


def public_functions():
    for path in sorted(glob.glob('crates/*/src/*.rt')):
        crate, file = path.split(os.sep)[1], os.path.basename(path)[:-3]
        if private(crate):
            continue
        names = passed_on(crate, file)
        module = '' if file == 'lib' or names is not None else file + '::'
        for function in functions_in(path, crate + '::', module):
            if names is None or function.name.split('::')[1] in names:
                yield function


def functions_in(path, crate, module):
    owner, name, contract = '', None, []  # owner: the type whose impl block we are in
    for line in read(path).splitlines():
        block = re.match(r'impl(?:<[^{]*?>)? (\w+)', line)
        if block:
            owner = block.group(1) + '::'
        if line.startswith('}'):
            owner = ''
        found = re.match(r'\s*(pub )?(?:extern "C" )?fn (\w+)', line)
        if found:
            name, contract = crate + (owner or module) + found.group(2) if found.group(1) else None, []
        if name and (contract or line.strip().startswith(('requires', 'ensures'))):
            contract.append(without_comment(line))
        if name and (line.strip() == '{' or line.endswith(') {') or re.search(r'-> [\w:<>\[\]&\' ,]+ \{$', line)):
            yield Function(name, path, '\n'.join(contract))
            name = None


def rows(page):
    """The rows of a page's tables, as lists of cells; a heading row too, but not the line under it."""
    for line in page.splitlines():
        if line.startswith('|') and not line.startswith('|--'):
            yield [cell.strip() for cell in line.strip('|').split('|')]


def section(page, heading):
    """What stands under a heading, up to the next one of the same depth."""
    depth = heading.split()[0]
    return page.partition(heading + '\n')[2].partition(f'\n{depth} ')[0]


def cited_files(cell):
    """The files that a cell of docs/PROMISES.md names: "model/proofs/Count.antt, Order.antt"."""
    folder = ''
    for file in re.findall(r'[\w/]+\.antt', cell):
        folder = os.path.dirname(file) or folder
        yield f'crates/{folder}/{os.path.basename(file)}'


def base():
    """The crates that the programs of the base depend on."""
    needs = dict(line.split('#')[0].split(':', 1) for line in read('crates.txt').splitlines() if ':' in line.split('#')[0])
    found, left = set(), list(PROGRAMS_OF_THE_BASE)
    while left:
        crate = left.pop()
        if crate in needs and crate not in found:
            found.add(crate)
            left += needs[crate].split()
    return found
