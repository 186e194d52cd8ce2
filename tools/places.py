#!/usr/bin/env python3
"""Counts, in crates/*/src, the places that each point of docs/DESIGN-PASS.md is about: old forms for which today's Rattle has another.

Usage: tools/places.py [FOLDER] [--list]
FOLDER is the top of a checkout. A place is a line, or a function by its first line; --list prints each. A pattern finds what looks like the
old form; whether it is one, a reader decides, and docs/DESIGN-PASS.md says so.
"""
import collections
import glob
import os
import re
import sys

root = next((a for a in sys.argv[1:] if not a.startswith('-')), '.')
wanted = '--list' in sys.argv
found = collections.OrderedDict()


def note(row, path, line, text):
    found.setdefault(row, []).append((os.path.relpath(path, root + '/crates'), line, ' '.join(text.split())[:110]))


def row(name):
    found.setdefault(name, [])


NAMES = [
    '1a enums of two or three cases, one of which says "none", "refused" or "stopped"',
    '1b numbers for kinds, sorts, roles, reasons and rules (constants)',
    '1c numbers that say "none" or "not found" by a value (comments on results and fields)',
    '1d refusals built by hand: Refusal { rule, row: 0 } or Fault { number, .. }',
    '2a pairs of helper functions of one name in two crates',
    '2b functions for && , least, greatest and widening, written by hand',
    '3a while loops that count an index by hand',
    '3b for loops over 0..n that only look at one slice or copy one',
    '3c other for loops over a range of rows or places',
    '4a comparisons of the number in a Tick, Job, Number or Slot',
    '4b conversions between an enum and its number, written as functions',
    '4c words and numbers printed by hand into a buffer',
    '5a functions of eight parameters or more',
    '5b functions that are lent a plan column by column',
    '5c functions that take text, rows and count side by side',
    '5d contract clauses that restate one fact (Lent, Usable, Remembers, sound, Known, Indexed, room, carry)',
    '6a a buffer with its length beside it (used, written, count, n)',
    '6b rows of numbers in one flat array, by ROW * k + c',
    '7a switches on a number that says which step to run',
    '8a answers that rename their context (let k = c)',
]
for name in NAMES:
    row(name)

helpers = collections.defaultdict(list)
CHAIN = {'both', 'least', 'larger', 'wide', 'beyond', 'at_most_one', 'one_if'}
FIELD = r'(?:at|before|end|until|due|low|high|next|held|release|job|unsent|n|number|reading|tick|middle|window\.\w+)'


def functions(text):
    """(first line, head up to the body, body) of each function"""
    lines = text.split('\n')
    i = 0
    while i < len(lines):
        if re.match(r'\s*(pub )?fn ', lines[i]):
            start = i
            indent = len(lines[i]) - len(lines[i].lstrip())
            head = []
            while i < len(lines) and not re.match(r'^ {%d}\{$' % indent, lines[i]) and not lines[i].rstrip().endswith(') {'):
                head.append(lines[i])
                i += 1
            head.append(lines[i] if i < len(lines) else '')
            body = []
            while i < len(lines) and lines[i] != ' ' * indent + '}':
                body.append(lines[i])
                i += 1
            yield start + 1, '\n'.join(head), '\n'.join(body)
        i += 1


for path in sorted(glob.glob(root + '/crates/*/src/**/*.rt', recursive=True)):
    text = open(path, encoding='utf-8').read()
    lines = text.split('\n')
    for m in re.finditer(r'^(?:pub )?enum (\w+)[^{]*\{(.*?)^\}', text, re.M | re.S):
        cases = [c.strip() for c in re.sub(r'//[^\n]*', '', m.group(2)).split('\n') if c.strip()]
        names = [re.match(r'\w+', c).group(0) for c in cases if re.match(r'\w+', c)]
        payload = any('(' in c or '{' in c for c in cases)
        if len(names) <= 3 and payload and set(names) & {'Refused', 'Over', 'Bad', 'Stopped', 'NoRoom', 'Clear', 'None', 'Nothing', 'NotRead'}:
            note(NAMES[0], path, text[:m.start()].count('\n') + 1, 'enum ' + m.group(1))
    for k, line in enumerate(lines, 1):
        if re.match(r'\s*(pub )?const [A-Z_]+: usize = (0x[0-9a-f_]+|\d);', line) and not re.search(
                r'\b(ROW|STRIDE|WIDTH|DEPTH|PAYLOAD|ROOM|LINE_FEED|PROPERTIES|MOST_TYPES|NUMBER_BYTES|TASKS|QUEUES|ENOUGH|BYTES)\b', line):
            note(NAMES[1], path, k, line)
        if re.match(r'\s*//', line) and re.search(r'(?i)the count (of tasks )?where (none|there is none)|the number of rows where none|\b0 where (none|there|no|one|it)|\b0 for none|'
                                               r'number 0 says|no queue has the row|none where the (line|whole)|\b16 for any other|0 where it was not', line):
            note(NAMES[2], path, k, line)
        if re.search(r'\bFault \{( number|$)', line) and 'struct' not in line or re.search(r'\b(?:Verdict|Numbered|Origins|Window|Started)::Refused\(Refusal \{', line):
            note(NAMES[3], path, k, line)
        if re.search(FIELD + r'\.0 (<|<=|==|!=) ', line) or re.search(r'(<|<=|==|!=) ' + FIELD + r'\.0\b', line):
            if not re.search(r'requires|ensures|×|≡|≤|→', line):
                note(NAMES[9], path, k, line)
        if re.search(r'(ROW|row_words) \* ', line) and not re.search(r'requires|ensures|×|≤', line):
            note(NAMES[17], path, k, line)
        if re.search(r'sound_plan \(lent_plan|\bsound ≡ sound_plan plan|\bLent (sends|plan)\.now|\bUsable plan|Known text\.now|Indexed text\.now|longest_answer ≤ length|used ≤ carry_limit|Remembers |row_words \* count ≤', line):
            note(NAMES[15], path, k, line)
    for at, head, body in functions(text):
        name = re.search(r'fn (\w+)', head).group(1)
        params = head.split('requires')[0].split('ensures')[0]
        count = len(re.findall(r'\b\w+: (?!usize =)', params)) + (1 if re.search(r'[(\s](mut )?self\b|&(mut )?self\b', params) else 0)
        if re.search(r'(?m)^\s*(pub )?fn ', head) and not re.search(r'(?m)^\s*pub fn ', head):
            helpers[name].append((path, at))
        if name in CHAIN:
            note(NAMES[5], path, at, 'fn ' + name)
        if count >= 8:
            note(NAMES[12], path, at, 'fn %s: %d' % (name, count))
        if re.search(r'\bsends: &', params) and re.search(r'\bperiod: &', params):
            note(NAMES[13], path, at, 'fn ' + name)
        if re.search(r'\btext: &', params) and re.search(r'\brows: &\[', params) and re.search(r'\bcount: usize', params):
            note(NAMES[14], path, at, 'fn ' + name)
        if re.search(r'\b(rule_number|rule_of|number_of_rule|kind_number)\b', name):
            note(NAMES[10], path, at, 'fn ' + name)
        if re.search(r'\bout: &mut \[u8\]', params) and re.search(r'\b(at|written|from|done): usize', params) or re.search(r'fn put_\w+', head) and '&mut [u8]' in params:
            note(NAMES[11], path, at, 'fn ' + name)
        if re.search(r'&(mut )?\[\w+\],\s*(used|written|n|count|held_bytes): usize', params) or re.search(r'\b(used|written): usize', params):
            note(NAMES[16], path, at, 'fn ' + name)
        if re.search(r'\b(role|sort|what|which|of|kind_of): usize', params) and re.search(r'if (role|sort|what|which|of) (==|!=)', body):
            note(NAMES[18], path, at, 'fn ' + name)
        for m in re.finditer(r'(?m)^(\s*)(while|for) (.*?) \{$(.*?)^\1\}', body, re.S):
            line = at + head.count('\n') + body[:m.start()].count('\n')
            inside = m.group(4)
            if m.group(2) == 'while':
                tested = re.findall(r'\b([a-z_]+)\b', m.group(3))
                if any(re.search(r'\b%s (\+=|-=) ' % v, inside) for v in tested):
                    note(NAMES[6], path, line, name + ': while ' + m.group(3))
            elif '..' in m.group(3):
                v = m.group(3).split(' in ')[0]
                arrays = set(re.findall(r'(\b[a-z_.]+)\[[^\]]*\b%s\b[^\]]*\]' % re.escape(v), inside))
                rest = re.sub(r'\b[a-z_.]+\[[^\]]*\b%s\b[^\]]*\]' % re.escape(v), '', inside)
                only = not re.search(r'\b%s\b' % re.escape(v), rest)
                if only and len(arrays) <= 2:
                    note(NAMES[7], path, line, '%s: for %s over %s' % (name, m.group(3), ', '.join(sorted(arrays)) or 'nothing'))
                else:
                    note(NAMES[8], path, line, '%s: for %s over %s' % (name, m.group(3), ', '.join(sorted(arrays)) or 'nothing'))

for name, places in sorted(helpers.items()):
    if len({p for p, _ in places}) > 1:
        for path, at in places:
            note(NAMES[4], path, at, 'fn ' + name)
for path in sorted(glob.glob(root + '/crates/*/proofs/**/*.antt', recursive=True)):
    for k, line in enumerate(open(path, encoding='utf-8'), 1):
        if re.match(r'\s*let [a-z] = c in', line):
            note(NAMES[19], path, k, line)

for name, places in found.items():
    print('%4d  %s' % (len(places), name))
    if wanted:
        for path, line, text in places:
            print('        %s:%d  %s' % (path, line, text))
