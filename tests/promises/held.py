"""Holds docs/PROMISES.md, and the theorems of crates/outcomes that the inputs alone decide, to the code. Each public function of a
library and each must-fail edit is named there, what is named there exists, and each row that promises something has two wrong
programs. Each public function of a library has its theorem, or stands among those without, with a reason, as the main of each program
does; and never both. A function without its crate is of the crate named before it in its cell; an edit without one is of a crate of
its row. A method that a library writes for a trait is public too: it is TYPETRAIT.METHOD here and in the names of the toolchain, as
HardTryFromU32.try_from; the methods of a trait of the library's own stand once, as TRAIT.METHOD."""
import re
from pathlib import Path

WITHOUT = '### Functions without such a theorem\n'


def rows(text):
    for row in re.findall(r'^\| `.*\|$', text, re.M):
        yield [cell.strip() for cell in row.strip('|').split('|')]


def functions_of(cell):
    crate = None
    for span in re.findall(r'`([^`]*)`', cell):
        head = span.split('(')[0]
        crate = head.split('::')[0] if '::' in head else crate
        yield crate, head.split('::')[-1]


def methods_of(source):
    own = set(re.findall(r'^pub trait (\w+)', source, re.M))
    for trait, body in re.findall(r'^pub trait (\w+).*?\{\n(.*?)^\}', source, re.M | re.S):
        yield from (f'{trait}.{method}' for method in re.findall(r'^    fn (\w+)', body, re.M))
    for trait, of, kind, body in re.findall(r'^impl (\w+)(?:<(\w+)>)? for (\w+).*?\{\n(.*?)^\}', source, re.M | re.S):
        if trait not in own:
            name = ''.join(word[:1].upper() + word[1:] for word in (kind, trait, of))
            yield from (f'{name}.{method}' for method in re.findall(r'^    fn (\w+)', body, re.M))


def theorems(root):
    """The functions that have their theorem, and a line for each theorem whose name and statement are not of one function."""
    decided, faults = set(), []
    for file in sorted(Path(root, 'crates/outcomes/proofs').glob('*.antt')):
        text = file.read_text()
        crates = {short or crate: crate for crate, short in re.findall(r'^use Rattle\.(\w+)(?: as (\S+))?$', text, re.M)}
        for name, statement in re.findall(r'^ *pub (\S+_decided) : (.*)$', text, re.M):
            # of a generic function for any type, by what the type brings along: both in parentheses
            said = re.fullmatch(r'Decided(?:By)? (\S+?)\.specs\.contracts\.([\w.]+)\.ended (?:.* )?\1\.proofs\.\2\.Reads\.Post', statement) or \
                re.fullmatch(r'Decided \((\S+)\.specs\.contracts\.(\w+)\.ended [\w ]+\) \(\1\.proofs\.\2\.Reads\.Post [\w ]+\)', statement)
            function = said and (crates.get(said[1], 'none'), said[2])
            if function and name == '_'.join(function).replace('.', '_') + '_decided':
                decided.add(function)
            else:
                faults.append(f'{file.relative_to(root)}: {name} does not say of the function in its name that it is decided')
    return decided, faults


def check(root):
    """How much is as it has to be, and a line for each thing that is not."""
    crates = set(re.findall(r'^(\w+)(?: staticlib)?:', Path(root, 'crates.txt').read_text(), re.M))
    programs = {c for c in crates if Path(root, 'crates', c, 'src/main.rt').exists()}  # nothing calls into a program
    sources = [(c, file.read_text()) for c in crates - programs for file in Path(root, 'crates', c, 'src').glob('**/*.rt')]
    functions = {(c, f) for c, source in sources for f in re.findall(r'^pub (?:extern "C" )?fn (\w+)', source, re.M)}
    functions |= {(c, f) for c, source in sources for f in methods_of(source)}
    edits = {(c, file.stem) for c in crates for file in Path(root, 'crates', c, 'must-fail').glob('*.edit')}
    mains = {(c, 'main') for c in programs}
    decided, faults = theorems(root)

    parts = re.split('^(?=#)', Path(root, 'docs/PROMISES.md').read_text(), flags=re.M)
    text = ''.join(part for part in parts if not part.startswith(WITHOUT))
    excepted = set()
    for cells in rows(''.join(part for part in parts if part.startswith(WITHOUT))):
        excepted |= set(functions_of(cells[0]))
        if not cells[-1]:
            faults.append(f'docs/PROMISES.md has no reason for {cells[0]}')

    named_functions = excepted - mains
    named_edits = {span for span in re.findall(r'`(\w+)/(\w+)`', text) if span[0] in crates}
    for cells in rows(text):
        of_row = set(functions_of(cells[0]))
        named_functions |= of_row
        if cells[-1].count('`') < 4:
            faults.append(f'docs/PROMISES.md has no two wrong programs for {cells[0]}')
        for edit in re.findall(r'`(\w+)`', cells[-1]):
            of_crates = {c for c, _ in of_row}
            named_edits |= {(c, edit) for c in of_crates if (c, edit) in edits} or {('/'.join(sorted(of_crates)), edit)}

    for what, there, named in (('function', functions, named_functions), ('edit', edits, named_edits)):
        faults += [f'docs/PROMISES.md does not name {what} {name} of {c}' for c, name in sorted(there - named)]
        faults += [f'docs/PROMISES.md names {what} {name} of {c}, which is not there' for c, name in sorted(named - there)]
    held = (functions | mains) & (decided ^ excepted)
    faults += [f'{f} of {c} has no theorem that it is decided, and no reason' for c, f in sorted((functions | mains) - decided - excepted)]
    faults += [f'{f} of {c} has a theorem that it is decided, and a reason for none' for c, f in sorted(decided & excepted)]
    return len(functions & named_functions) + len(edits & named_edits) + len(held), faults
