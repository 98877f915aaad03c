"""Counts the places in src/ that docs/DESIGN-PASS.md speaks of, point by point.

    python3 tools/design_counts.py            counts in the working tree
    python3 tools/design_counts.py COMMIT     counts in a commit
    python3 tools/design_counts.py -v ..      lists each place too

Tests (below `#[cfg(test)]`, and tests.rt) are left out. A place is found by its text, so what is found is read before it is called one.
"""
import re
import subprocess
import sys
from collections import defaultdict


def files(commit):
    if commit:
        names = subprocess.check_output(['git', 'ls-tree', '-r', '--name-only', commit], text=True).split('\n')
        read = lambda n: subprocess.check_output(['git', 'show', f'{commit}:{n}'], text=True)
    else:
        names = subprocess.check_output(['git', 'ls-files'], text=True).split('\n')
        read = lambda n: open(n).read()
    for name in names:
        if re.match(r'crates/\w+/src/.*\.rt$', name) and not name.endswith('/tests.rt'):
            text = read(name)
            if '#[cfg(test)]\nmod tests {' in text:
                text = text[:text.index('#[cfg(test)]\nmod tests {')]
            yield name, text


LINES = {
    '1 cases of an own enum beside an empty one, as of Option or Result':
        r'^    (Unset|Done|Refused\(|Malformed\(|Answered\(|Factor\(|Out),?',
    '1 numbers for roles, classes and letters': r'^\s*(pub )?\w*(fn .*)?\b(role|class): u64|-> u64\b.*role|letter: u8',
    '1 None or an error handed on by hand': r'None => None|Err\(\w+\) => Err\(|=> return None;|Some\(\w+\) => Some\(\w+\),|Ok\(\w+\) => Ok\(\w+\),|None => Err\(|Err\(_\) => None',
    '1 a flag for a result or a state': r'-> (io::Result<)?bool>? \{|^\s+(pub(\(crate\))? )?(fits|measures): bool|let mut asked',
    '3 loops that count an index': r'for \w+ in \(?[\w]+\.\.|while \w+ < |\.enumerate\(\)',
    '4 comparison and order by hand': r'Ordering::(Less|Equal|Greater) =>|fn (is_kind|of_kind|built_at|smaller|ranked)\b',
    '4 conversion and printing by hand': r'fn (letter|of_letter|word|from_word|term_word|integer|signed_fixed|fixed|decimals|reply_to|outcome_of|answer_of)\b|% 10;',
    '6 fixed arrays, and a length or place beside them': r'\[[A-Za-z][\w<>() ]*; \d+\]|^\s+(pub(\(crate\))? )?(at|held|limit): usize',
    '7 switches by a flag': r'\b\w+: bool[,)]',
}


def functions(text):
    for m in re.finditer(r'^ *(?:pub(?:\([a-z]+\))? )?(?:extern "C" )?fn (\w+)', text, re.M):
        end = text.find('{\n', m.end())
        semi = text.find(';\n', m.end())
        body = text[m.start():]
        head = []
        for line in body.split('\n'):
            head.append(line)
            if line.strip() == '{' or line.rstrip().endswith(';') or (line.rstrip().endswith('{') and 'ensures' not in line and 'requires' not in line):
                break
        yield m.group(1), '\n'.join(head)


def main():
    args = [a for a in sys.argv[1:] if a != '-v']
    verbose = '-v' in sys.argv
    commit = args[0] if args else None
    found = defaultdict(list)
    clauses, pairs = defaultdict(set), defaultdict(set)
    for name, text in files(commit):
        for number, line in enumerate(text.split('\n'), 1):
            if line.strip().startswith('//') or 'ghost use' in line:
                continue
            for point, pattern in LINES.items():
                if re.search(pattern, line):
                    found[point].append(f'{name}:{number}: {line.strip()}')
        for function, head in functions(text):
            at = f'{name}: {function}'
            for clause in re.findall(r'(?:requires|ensures)(?: \w+)? \{ (.*) \}', head):
                clauses[re.sub(r'\bE\.(Effect\.)?means', 'E.means', clause)].add(at)
            parameters = re.findall(r'(\w+): ([^,()\n]+)', re.sub(r'<[^<>]*>\(', '(', head.split('ensures')[0].split('requires')[0]))
            parameters = [f'{n}: {t}' for n, t in parameters]
            for i in range(len(parameters) - 1):
                pairs[tuple(parameters[i:i + 2])].add(at)
    for clause, where in clauses.items():
        if len(where) >= 3:
            found['5 clauses that stand in three or more functions'].append(f'{len(where)} times: {clause}')
    for pair, where in pairs.items():
        if len(where) >= 3:
            found['5 pairs of parameters that stand in three or more functions'].append(f'{len(where)} times: {", ".join(pair)}')
    for point in sorted(found):
        print(f'{len(found[point]):4} {point}')
        if verbose:
            for place in found[point]:
                print('       ', place)


main()
