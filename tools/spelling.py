#!/usr/bin/env python3
"""Brings the repository's own names to the spelling of today's Rattle: definitions, lemmas, fields and local names in snake case, types and
facts in camel case. Run once, at the top, after port.py. Rust names, strings, inputs and outputs keep theirs."""
import collections
import glob
import re

# Two names that would fall together, or that need more than a change of letters. A lemma with the name of its definition gets `_lem`.
BY_HAND = {
    'List·getD-append': 'get_or-append',
    'List·getD-eq-default': 'get_or-eq_default',
    'needs': 'rules',
    'task-length': 'task_length_lem',
    'table-a': 'table_a_lem',
    'tick-of': 'tick_of_lem',
    'is-stored': 'is_stored_lem',
    'size-at': 'size_at_lem',
    'bad-task': 'bad_task_lem',
    'bad-queue': 'bad_queue_lem',
    'send-says': 'send_says_lem',
    'receive-says': 'receive_says_lem',
    'window-numbers': 'window_numbers_lem',
    'first-sender': 'first_sender_lem',
    'so-far': 'so_far_lem',
    'sound-plan': 'sound_plan_lem',
    'slot-inside': 'slot_inside_lem',
    'row-above': 'row_above_lem',
    'message-line': 'message_line_lem',
    'is-line': 'is_line_lem',
    'chosen-below': 'chosen_below_lem',
    'thread-row': 'thread_row_lem',
    'is-sound': 'is_sound_lem',
    'call-turn': 'call_turn_lem',
    'frame-turn': 'frame_turn_lem',
    'line-turn': 'line_turn_lem',
    'origins-says': 'origins_says_lem',
    'window-says': 'window_says_lem',
    'row-until': 'row_until_lem',
}
# The same in one crate alone, where another crate has the name for something else.
IN_CRATE = {
    'values': {'part_by': 'part_by_lem'},
    'imports': {'no_table': 'no_table_lem', 'over': 'Over'},
    'reader': {'ended': 'Ended'},
    'steps': {'own_name': 'own_name_lem'},
    'console': {'too_long': 'too_long_lem'},
}

DECLARED = re.compile(
    r'^(\s*)((?:(?:pub|abbrev|unfoldable|data|record|open)\s+)*)([^\s(){}:;,.|]+)((?:\s+[({][^=]*?[)}])*)\s*:(?=\s|$)(.*)$'
)
TOKEN = re.compile(r"[^\s(){}\[\];,.|`\"]+")


def declared(files):
    found = collections.defaultdict(list)
    for file in files:
        for line in open(file).read().split('\n'):
            m = DECLARED.match(line)
            if m and not line.strip().startswith('--') and m.group(3) not in ('use', 'mod', 'let', 'in'):
                found[m.group(3)].append(m.group(5).strip())
    return found


def from_libraries(files):
    names = set()
    for file in files:
        for m in re.finditer(r'^\s*(?:pub |ghost |unfoldable )*use\s+([^\s{;]+?)\.\{([^}]*)\}', open(file).read(), re.M):
            if re.match(r'Rattle\.(std|core)\b', m.group(1)) or not m.group(1).startswith('Rattle'):
                names |= {n.strip().split(' as ')[0] for n in m.group(2).split(',')}
    return names


def snake(name):
    return re.sub(r'(?<=[a-z0-9])([A-Z])', lambda m: '_' + m.group(1).lower(), name.replace('-', '_'))


def is_answer(signature):
    return re.match(r'(\(t : ℕ\) → )?[\w-]+\.(Need|invariant|decreases)', signature) or signature.startswith('goal.')


def table(antt, rt):
    found = declared(antt)
    libraries = from_libraries(antt + rt)
    turned = {}
    for name, signatures in found.items():
        if re.fullmatch(r'[A-Z]+(-[A-Z]+)+', name):
            turned[name] = name.replace('-', '_')  # a constant of two words
            continue
        if name in libraries or name[0].isupper() or '◌' in name or all(is_answer(s) for s in signatures):
            continue
        if snake(name) != name:
            turned[name] = snake(name)
    turned.update(BY_HAND)
    return turned


def turn(text, names):
    return TOKEN.sub(lambda m: names.get(m.group(0), m.group(0)), text)


def turn_rt(text, names):
    # Rust has no name with a dash or a small first letter and a capital, so a name can only stand in ghost text or in a comment;
    # strings stay.
    lines = []
    for line in text.split('\n'):
        parts = re.split(r'("(?:[^"\\]|\\.)*")', line)
        lines.append(''.join(p if p.startswith('"') else turn(p, names) for p in parts))
    return '\n'.join(lines)


def local_names(text, names, libraries):
    # what is left in camel case is bound in this file: a variable
    return {t: snake(t) for t in set(TOKEN.findall(text))
            if re.fullmatch(r"[a-z]+([A-Z][a-z0-9]*)+[₀']*", t) and t not in libraries and t not in names}


def main():
    antt = sorted(glob.glob('crates/**/*.antt', recursive=True))
    rt = sorted(glob.glob('crates/**/*.rt', recursive=True))
    edits = sorted(glob.glob('crates/**/*.edit', recursive=True))
    names = table(antt, rt)
    libraries = from_libraries(antt + rt)
    for file in antt + rt + edits:
        text = open(file).read()
        crate = file.split('/')[1]
        here = {k: v for k, v in names.items()}
        here.update(IN_CRATE.get(crate, {}))
        if file.endswith('.rt'):
            here = {k: v for k, v in here.items() if re.search(r'-|[a-z][A-Z]|·', k)}
            new = turn_rt(text, here)
        else:
            here.update(local_names(text, here, libraries) if file.endswith('.antt') else {})
            new = turn(text, here)
        if file.endswith('.antt'):
            new = new.replace(', rules, rules', ', rules')
        if new != text:
            open(file, 'w').write(new)


main()
