#!/usr/bin/env python3
"""Writes docs/HEADLINE.md: what a `go` promises, with every definition that the promise stands on, on one page.

    python3 docs/headline.py            writes the page
    python3 docs/headline.py --check    status 1 if the page that stands is another

Definitions are read from crates/*/specs/*.antt and followed by the names that they cite, from the clause on; the types of the
program that they speak of come from crates/*/src. docs/headline_words.txt explains the words of the library, a line for each.
"""
import pathlib
import re
import sys

ROOT = pathlib.Path(__file__).resolve().parent.parent
PAGE = ROOT / 'docs' / 'HEADLINE.md'
LIBRARY_WORDS = ROOT / 'docs' / 'headline_words.txt'

# the clause, field by field; the last is the headline
CLAUSE = [('cmd_go', 'Promises', 'GoPromises'), ('cmd_go', 'Promises', 'go_words'), ('cmd_go', 'Headline', 'IsWellGone')]
HEADLINE = ('cmd_go', 'Headline', 'IsGone')
# what a design is where its text has one model, and that this is no other sentence
SHORT = [('design_laws', 'ShortDesigns', 'AreOfOneModel'), ('design_laws', 'ShortDesigns', 'IsShortDesign')]
# the sections of crates.txt, in the order in which a reader meets them
LAYERS = ['Commands', 'Rigs: machines under test', 'The machine', 'Laying: from a design to an image', 'Designs', 'Diagnosis', 'Base']

INTRODUCTION = """\
# The headline on one page

Written by `docs/headline.py`, and not to be edited; `python3 docs/headline.py --check` says when it is old.

**How to read it.** First stands the clause: what the top call `teramac` promises of the words `go MACHINE NAME DESIGN VECTORS`.
Then stands every definition that it leads to, each once, under the file that it stands in: layer by layer from the commands down to
texts and lists, and in a file what cites before what is cited. So it can be read from the top as far as doubt goes.
The checker proves the clause of the program's own call. What it means is what stands here, and what `store_state`, `rig_state` and
`sink_state` are of the store, the rig and the sink that the program is run with (`docs/RIG.md`).

- `old` and `new` are what is around the program (the store, the rig and the sink) before the call and after it, as a contract
  sees them. `new.rig.session` is what was loaded and what was driven and read since; `new.sink.written` the bytes that were
  written. Names, files and words are lists of bytes.
- What is *told* is known to contracts alone; no line of code can see it. `store.contents name` is what is told of a file, and
  `IfTold` says something of its bytes only where they are told.
- Sentences on faults begin with `(f : Faults) → Explains f new.rig →`. They are said of each set that explains all that was read of
  the machine: so of a board, of which nobody can tell its faults. Where a rig tells some, as the simulated one does, they are such a
  set. Where no set explains what was read, these sentences say nothing.
- Most of the words on designs speak of models in models. For a text of one model without `.subckt` the *design* (`IsDesign`) is the
  short definition `IsShortDesign`, which stands right behind the clause: this is proved, in both directions.
- A `record` has all of its fields, a `data` is one of its cases. `A × B` is *and*, `A ⊎ B` *or*, `A → B` *if .. then*,
  `(x : A) → B` *for all*, `(x : A) × B` *there is*, `⊥` what never holds, `a ≡ b` *are equal*. `Type 0` is the type of sentences.
- A type of the program is shown as it is declared. Contracts see a number as a number, and a `Vec`, `Items` or `String` as a list.
"""


class Definition:
    """A definition of specs/ or a type of src/: its place (crate, module, name), its file, and its lines."""

    def __init__(self, place, path, module=()):
        self.place, self.path, self.module = place, path, list(module)
        self.comment, self.lines = [], []

    def text(self):
        return '\n'.join(self.comment + self.lines)

    def code(self):
        """What is left without comments, texts, and the names of fields."""
        code = '\n'.join(re.sub(r'(--|//).*', '', line) for line in self.module + self.lines)
        code = re.sub(r'"[^"]*"', '', code)
        code = re.sub(r'^ *pub [\w-]+ *:(?=\s)', '', code, flags=re.M)
        return re.sub(r"(?<=[{;] )[\w-]+ = |^ +[\w-]+ = (?=.*;$)", '', code, flags=re.M)


class Imports:
    """What the names of a file mean: `names` are definitions, `files` stand before a dot, `library` are words of the library."""

    def __init__(self, text):
        self.names, self.files, self.library, self.crates = {}, {}, {}, []
        text = re.sub(r'\n[ \t]+', ' ', text)
        pattern = r'^(?:pub |ghost )?use Rattle\.(\w+)\.specs\.([\w.]*?)(?:\.?\{([^}]*)\})?(?: as ([\w-]+))?;?$'
        for crate, module, names, alias in re.findall(pattern, text, re.M):
            if alias:
                self.files[alias] = (crate, module)
            for part in filter(None, map(str.strip, names.split(','))):
                path, _, other = part.partition(' as ')
                below, _, own = path.rpartition('.')
                place = (crate, '.'.join(filter(None, (module, below))), own)
                (self.library if crate == 'std' else self.names)[other or own] = place
        self.crates = re.findall(r'^use (\w+)::', text, re.M)


def read_specs(path, crate):
    """The definitions of a file of specs/, in order."""
    module, current, comment, gap = [], None, [], False
    for line in path.read_text().splitlines():
        indent = len(line) - len(line.lstrip())
        if not line.strip():
            comment, gap = [], True
            continue
        if indent == 0:
            module = []
        base = 2 if module else 0
        if line.startswith('module '):
            module, current, comment = comment + [line], None, []
        elif re.match(r'(pub )?(use|mod) ', line):
            current = None
        elif module and current is None and indent > 2:
            module.append(line)
        elif indent == base and line.lstrip().startswith('--'):
            comment.append(line)
        elif indent == base and re.match(r' *((abbrev|unfoldable|opaque|pub|record|data) )+', line):
            name = re.match(r' *(?:(?:abbrev|unfoldable|opaque|pub|record|data) )+(\S+)', line).group(1)
            current = Definition((crate, path.stem, name), path, module)
            current.comment, current.lines, comment = comment, [line], []
            yield current
        elif current:
            current.lines += [''] * (gap and indent > base) + [line]
        gap = False


def read_types(path, crate):
    """The structs and enums of a file of src/, with what is said of them."""
    lines = path.read_text().splitlines()
    module = '.'.join(path.relative_to(ROOT / 'crates' / crate / 'src').with_suffix('').parts)
    for number, line in enumerate(lines):
        match = re.match(r'(?:pub(?:\(crate\))? )?(?:struct|enum) (\w+)', line)
        if not match:
            continue
        name = match.group(1)
        found = Definition((crate, f'declared.{name}' if module == 'lib' else f'declared.{module}.{name}', name), path)
        above = number
        while above > 0 and lines[above - 1].startswith(('//', '#[')):
            above -= 1
        found.comment = [l for l in lines[above:number] if l.startswith('//')]
        end = number
        while not (lines[end].startswith('}') or lines[end].endswith(';') and end == number):
            end += 1
        found.lines = lines[number:end + 1]
        yield found


def read_layers():
    """The sections of crates.txt: a title, and the crates below it."""
    layers, title = {}, ''
    for line in (ROOT / 'crates.txt').read_text().splitlines():
        if line.startswith('# '):
            title = line[2:]
        elif ':' in line:
            layers.setdefault(title, []).append(line.split(':')[0].split()[0])
    return layers


def words_in(code):
    """The words of a definition: (front, word), where `front.word` stands there; of `a.b.c` the rest is left out."""
    word = r"[^\s(){}\[\]<>;,.:=λ→×⊎∙∷&|]+"
    for match in re.finditer(rf"(?<![.\w])({word})(?:\.({word}))?", code):
        yield match.groups()


class Trail:
    """All definitions, and what each cites."""

    def __init__(self):
        self.definitions, self.imports, self.owners, self.types = {}, {}, {}, {}
        self.layers = read_layers()
        for crate in sum(self.layers.values(), []):
            for path in sorted((ROOT / 'crates' / crate / 'specs').glob('*.antt')):
                self.add(path, (crate, path.stem), read_specs(path, crate))
            for path in sorted((ROOT / 'crates' / crate / 'src').glob('**/*.rt')):
                self.add(path, None, read_types(path, crate))
        self.library = set()

    def add(self, path, file, definitions):
        imports = self.imports[file] = Imports(path.read_text())
        for definition in definitions:
            self.definitions[definition.place] = definition
            self.imports[definition.place] = imports
            if definition.path.suffix == '.rt':
                self.types[definition.place[0], definition.place[2]] = definition.place
            if re.match(r'(pub )?data ', definition.lines[0]):
                for name in re.findall(r'^  ([\w-]+) :', '\n'.join(definition.lines), re.M):
                    self.owners[definition.place[:2] + (name,)] = definition.place

    def resolved(self, place):
        """What an import names: a definition, the type of a case, or what the file that it names passes on."""
        crate, module, name = place
        if module.endswith('.TheVariants'):
            module = module[:-len('.TheVariants')]
            place = (crate, module, module.split('.')[-1])
        place = self.owners.get(place, place)
        if place not in self.definitions and (crate, module) in self.imports:
            place = self.imports[crate, module].names.get(name, place)
        return place

    def meaning(self, place, front, word):
        """The place of `word`, or of `front.word`, in the file of a definition."""
        imports, crate = self.imports[place], place[0]
        if word and front in imports.files:
            return self.resolved(imports.files[front] + (word,))
        if front in imports.names:
            return self.resolved(imports.names[front])
        if front in imports.library:
            self.library.add(imports.library[front])
        if self.definitions[place].path.suffix == '.rt' and front[0].isupper():
            found = [self.types[c, front] for c in [crate] + imports.crates if (c, front) in self.types]
            return found[0] if found else None
        return self.resolved(place[:2] + (front,))

    def cited(self, place):
        """What a definition cites, as it comes."""
        code = self.definitions[place].code()
        for sign, target in self.imports[place].library.items():
            if not sign[0].isalpha() and all(part in code for part in sign.split('◌')):
                self.library.add(target)
        found = (self.meaning(place, front, word) for front, word in words_in(code))
        return [target for target in dict.fromkeys(found) if target in self.definitions and target != place]

    def led_to(self, starts, seen):
        """What these lead to and `seen` has not: what cites before what is cited."""
        order = []

        def visit(place):
            if place not in seen:
                seen.add(place)
                for target in reversed(self.cited(place)):
                    visit(target)
                order.append(place)

        for start in reversed(starts):
            for target in reversed(self.cited(start)):
                visit(target)
        return order[::-1]


def fenced(language, text):
    return f'```{language}\n{text}\n```\n'


def by_name(path):
    name = path.relative_to(ROOT / 'crates')
    return f'[{name}](../crates/{name})\n'


def by_files(definitions):
    """Definitions, each file's under its name."""
    page = []
    for path in dict.fromkeys(found.path for found in definitions):
        texts, module = [], []
        for found in (found for found in definitions if found.path == path):
            texts += ['\n'.join(found.module)] if found.module not in ([], module) else []
            texts.append(found.text())
            module = found.module
        page += [by_name(path), fenced('rust' if path.suffix == '.rt' else 'antt', '\n\n'.join(texts))]
    return page


def section(trail, places):
    """Definitions by layers and files."""
    page = []
    layers = LAYERS + [title for title in trail.layers if title not in LAYERS]
    for title in layers:
        here = [place for place in places if place[0] in trail.layers.get(title, [])]
        page += [f'### {title}\n'] if here else []
        page += by_files([trail.definitions[place] for place in here])
    return page


def call(path, name):
    """A public function and its clauses, cut out of its file."""
    found = re.search(rf'^pub fn {name}\b.*?(?=^\{{)', (ROOT / 'crates' / path).read_text(), re.M | re.S)
    return f'[{path}](../crates/{path})\n\n' + fenced('rust', found.group(0).rstrip())


def clause(trail):
    """The clause of the top call, the field of it that is the promise of `go`, and what that says."""
    promises = trail.definitions['cmd_top', 'Promises', 'Promises']
    field = '\n'.join(promises.comment + [l for l in promises.lines if 'record' in l or 'of_go' in l])
    page = ['## The clause\n', call('cmd_top/src/program.rt', 'teramac'), by_name(promises.path), fenced('antt', field)]
    return page + by_files([trail.definitions[place] for place in CLAUSE + [HEADLINE]])


def library(trail):
    """A line for each word of the library."""
    meanings = dict(line.split(' | ', 1) for line in LIBRARY_WORDS.read_text().splitlines())
    modules = {word: module for _, module, word in sorted(trail.library, key=lambda word: word[1] != 'Prelude')}
    missing = sorted(set(modules) - set(meanings))
    if missing:
        sys.exit('docs/headline_words.txt has no line for ' + ' '.join(missing))
    lines = [f'- `{word}` (`{modules[word]}`): {meaning}' for word, meaning in meanings.items() if word in modules]
    where = 'They stand in `specs` of the standard library that the kit brings (`KIT/rattle/std` and `core`).\n'
    return ['## Words of the library\n', where, '\n'.join(lines) + '\n']


def counted(trail, title, starts, seen, before=()):
    """A part of the page: what these definitions lead to, with its size."""
    places = [start for start in starts if start not in seen] + trail.led_to(starts, seen | set(starts))
    seen.update(places)
    lines = sum(len(trail.definitions[place].text().splitlines()) for place in places)
    files = len({trail.definitions[place].path for place in places})
    return [f'## {title}\n', f'{len(places)} definitions, {lines} lines, in {files} files.\n', *before] + section(trail, places)


def written():
    trail = Trail()
    seen = set(CLAUSE + [HEADLINE])
    law = ['For a text of one model that uses no other, *design* is no more than what stands in this part. The law:\n',
           call('design_laws/src/lib.rt', 'one_model_is_short')]
    page = [INTRODUCTION] + clause(trail)
    page += counted(trail, 'A design of one model', SHORT, seen, law)
    page += counted(trail, 'The headline', [HEADLINE], seen)
    page += counted(trail, 'What the clause says besides', CLAUSE, seen)
    return '\n'.join(page + library(trail))


def main():
    page = written()
    if sys.argv[1:] == ['--check']:
        if not PAGE.exists() or PAGE.read_text() != page:
            sys.exit('docs/HEADLINE.md is old: python3 docs/headline.py writes it anew')
    else:
        PAGE.write_text(page)


if __name__ == '__main__':
    main()
