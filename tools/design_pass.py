#!/usr/bin/env python3
"""tools/design_pass.py [COMMIT]: the places in src/ that docs/DESIGN-PASS.md counts, a line each, and their number; of the work tree without COMMIT."""
import re
import subprocess
import sys

ROOT = subprocess.run(['git', 'rev-parse', '--show-toplevel'], capture_output=True, text=True).stdout.strip()


def sources(commit):
    if commit:
        names = subprocess.run(['git', '-C', ROOT, 'ls-tree', '-r', '--name-only', commit], capture_output=True, text=True).stdout.split('\n')
    else:
        names = subprocess.run(['git', '-C', ROOT, 'ls-files'], capture_output=True, text=True).stdout.split('\n')
    for name in names:
        if re.match(r'crates/\w+/src/.*\.rt$', name):
            if commit:
                text = subprocess.run(['git', '-C', ROOT, 'show', commit + ':' + name], capture_output=True, text=True).stdout
            else:
                text = open(ROOT + '/' + name).read()
            yield name, text


def functions(text):
    """(line, name, number of parameters) of each function."""
    for found in re.finditer(r'^[ \t]*(?:pub(?:\(crate\))? )?(?:extern "C" )?fn (\w+)', text, re.M):
        at = text.index('(', found.end())
        if text[found.end():found.end() + 1] == '<':
            depth = 0
            for k in range(found.end(), len(text)):
                depth += (text[k] == '<') - (text[k] == '>' and text[k - 1] != '-')
                if depth == 0:
                    at = text.index('(', k)
                    break
        depth, count, some = 0, 0, False
        for k in range(at, len(text)):
            c = text[k]
            if c in '([{':
                depth += 1
            elif c in ')]}':
                depth -= 1
                if depth == 0:
                    break
            elif depth == 1 and c == ',':
                count, some = count + some, False
            elif depth == 1 and not c.isspace():
                some = True
        yield text.count('\n', 0, found.start()) + 1, found.group(1), count + some


def lines(pattern):
    return lambda text: [(k + 1, line.strip()) for k, line in enumerate(text.split('\n')) if re.search(pattern, line) and not line.lstrip().startswith('//')]


POINTS = [
    ('1a enums', lines(r'^\s*(pub(\(crate\))? )?enum ')),
    ('1b values that stand for none: constants NO_.., RESERVED', lines(r'^\s*(pub(\(crate\))? )?const (NO_|RESERVED)\w*: [ui]')),
    ('1c functions of a flag that says whether it went well: -> bool of print_, write_, say_, hand_, read_', lines(r'fn (print|write|say|hand|read)\w*\(.*-> bool')),
    ('1d matches and ladders on a number for a kind: if format == ..', lines(r'if (format|asked\.format|settings\.format) (==|<=) ')),
    ('2 structs of an answer beside a state', lines(r'^\s*pub answer: ')),
    ('3 loops that count by hand: while, loop', lines(r'^\s*(let \w+ = )?(while|loop)\b')),
    ('4 constructors of zeros by hand: fn zero_.., no_.., none, blank, area', lines(r'fn (zero_|no_|none|blank|area)\w*\(')),
    ('5 functions of seven parameters and more', lambda text: [(n, '%s: %d' % (name, count)) for n, name, count in functions(text) if count >= 7]),
    ('6 a line or area with the place reached beside it', lines(r'\((line|area|out|rows|bytes): &mut \[[^\]]*\], (at|n|used|start): usize')),
    ('7 function pointers, dyn, tables of functions', lines(r'\b(fn\(|dyn )')),
]


def main():
    commit = next((a for a in sys.argv[1:] if a != '-v'), None)
    texts = list(sources(commit))
    for title, find in POINTS:
        places = [(name, n, line) for name, text in texts for n, line in find(text)]
        print('%s: %d' % (title, len(places)))
        if '-v' in sys.argv:
            for name, n, line in places:
                print('    %s:%d: %s' % (name, n, line[:110]))


main()
