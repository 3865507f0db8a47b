#!/usr/bin/env python3
"""Whether the names in these pages exist, and whether READING.md names every definition under the three demands.

  python3 docs/names.py          says what is wrong, and ends with 1 where something is
  python3 docs/names.py --path   also prints the definitions under the demands, file by file, with their lines without comments

Looked at: every path in backticks; every name in backticks that could be one of the project's; every wrong answer of must-fail/ in STATEMENTS.md, and back.
"""
import os
import re
import sys

TOP = os.path.dirname(os.path.dirname(os.path.abspath(__file__)))
START = re.compile(r'(?:(?:abbrev|unfoldable) pub|pub (?:data|record)) ([^\s:({]+)')
USE = re.compile(r'use Rattle\.(\w+)\.specs\.([\w.]+?)\.\{(.*)\}')
USE_AS = re.compile(r'use Rattle\.(\w+)\.specs\.([\w.]+) as (\S+)')


def files(folder, ends):
    for where, _, names in os.walk(os.path.join(TOP, folder)):
        for name in sorted(names):
            if name.endswith(ends) and os.sep + 'out' + os.sep not in where:
                yield os.path.join(where, name)


def text(path):
    with open(path, encoding='utf-8') as f:
        return f.read()


def definitions():
    """Each definition of specs/ with its lines, and for each file the names that it knows."""
    lines_of, known_in = {}, {}
    for path in files('crates', '.antt'):
        crate, room, *rest = os.path.relpath(path, os.path.join(TOP, 'crates')).split(os.sep)
        if room != 'specs':
            continue
        here = (crate, '.'.join(rest)[:-5])
        known, current = {}, None
        for line in text(path).split('\n'):
            if (m := USE.match(line)):
                for name in m[3].split(','):
                    parts = name.strip().split(' as ')
                    known[parts[-1]] = (m[1], m[2], parts[0])
            elif (m := USE_AS.match(line)):
                known[m[3] + '.'] = (m[1], m[2], None)
            elif (m := START.match(line)):
                current = here + (m[1],)
                lines_of[current] = [line]
            elif current and line.strip() and not line.startswith('--') and (line[0] == ' ' or line.startswith(current[2] + ' ')):
                if not line.strip().startswith('--'):
                    lines_of[current].append(line)
            elif line.strip():
                current = None
        known_in[here] = known
    return lines_of, known_in


def reading_path():
    lines_of, known_in = definitions()

    def resolve(crate, file, word):
        known = known_in[crate, file]
        w = word.rstrip('.')
        while w:
            front, dot, last = w.rpartition('.')
            found = (crate, file, w), known.get(w), known.get(front + dot, (None, None, None))[:2] + (last,)
            for key in found:
                if key in lines_of:
                    return key
            w = front
        return None

    todo = [k for k in lines_of if k[0] == 'demands' and re.fullmatch(r'Demand[123]', k[2])]
    path = {}
    while todo:
        key = todo.pop()
        if key not in path:
            path[key] = lines_of[key]
            for word in re.findall(r'[^\s(){};,×→⊎λ⌜⌝]+', '\n'.join(lines_of[key])):
                found = resolve(key[0], key[1], word)
                if found:
                    todo.append(found)
    return path


def main():
    wrong = []
    source = {w for f in files('crates', ('.antt', '.rt')) for w in re.findall(r"[^\s(){};,.:`⌜⌝]+", text(f))}
    crates = set(os.listdir(os.path.join(TOP, 'crates')))
    edits = {os.path.basename(f)[:-5] for f in files('crates', '.edit')}
    for page in list(files('docs', '.md')) + [os.path.join(TOP, 'README.md')]:
        name = os.path.basename(page)
        if name in ('PORT.md', 'DESIGN-PASS.md', 'LOOK-BACK.md'):  # they name what was before
            continue
        for quoted in re.findall(r'`([^`\n]+)`', text(page)):
            if re.fullmatch(r'(crates|docs|bench|examples|include|tools)/[\w./-]+', quoted):
                if 'NAME' not in quoted and not os.path.exists(os.path.join(TOP, quoted)):
                    wrong.append('%s: no file %s' % (name, quoted))
            elif re.fullmatch(r"[A-Za-z][\w'-]*(::\w+)*", quoted) and '::' in quoted:
                for part in quoted.split('::'):
                    if part not in source and part not in crates:
                        wrong.append('%s: no name %s' % (name, quoted))
            elif re.fullmatch(r'[A-Za-z]+[A-Z][A-Za-z]*|[a-z]+(-[a-z0-9]+)+|[a-z0-9]+(_[a-z0-9]+)+', quoted):
                if quoted not in source and quoted not in edits:
                    wrong.append('%s: no name %s' % (name, quoted))
    statements = text(os.path.join(TOP, 'docs', 'STATEMENTS.md'))
    for edit in sorted(edits):
        if '`%s`' % edit not in statements:
            wrong.append('STATEMENTS.md: the wrong answer %s is not named' % edit)
    path = reading_path()
    named = set(re.findall(r'[^\s`,()|]+', text(os.path.join(TOP, 'docs', 'READING.md'))))
    for key in sorted(path):
        if key[2] not in named:
            wrong.append('READING.md: %s of crates/%s/specs/%s.antt is not named' % (key[2], key[0], key[1].replace('.', '/')))
    if '--path' in sys.argv:
        for place in sorted({k[:2] for k in path}):
            mine = {k[2]: len(path[k]) for k in path if k[:2] == place}
            print('%s/%s: %d lines: %s' % (place[0], place[1], sum(mine.values()), ', '.join(mine)))
    print('\n'.join(wrong + ['%d definitions in %d lines under the demands, %d names wrong' % (len(path), sum(len(v) for v in path.values()), len(wrong))]))
    return 1 if wrong else 0


if __name__ == '__main__':
    sys.exit(main())
