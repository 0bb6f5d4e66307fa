"""Holds what include/wickcollar.h and include/wickcollar.rs declare to the functions that crates/exports_c marks #[unsafe(no_mangle)], and
what these promise to the functions of the same names in crates/exports.

C and Rust link a wrong declaration in silence. So each function must stand in all three with the same parameters in the same order, where a
slice of the crate is a pointer and a length; and the wrapper must pass what it declares, and have the header's numbers. The theorems are about
the functions of crates/exports, since no crate can build on a static library: so those of exports_c must have their clauses, word for word.
"""
import re
from pathlib import Path

CRATE, LIBRARY = 'crates/exports_c/src/lib.rt', 'crates/exports/src/lib.rt'
HEADER, WRAPPER = 'include/wickcollar.h', 'include/wickcollar.rs'
C_TYPES = {'uint8_t': 'u8', 'uint32_t': 'u32', 'int32_t': 'i32', 'uint64_t': 'u64', 'size_t': 'usize'}


def parts(between):
    """What stands between two parentheses, at its commas, each with single spaces."""
    return [' '.join(part.split()) for part in between.split(',') if part.strip()]


def without_comments(text):
    return re.sub(r'//[^\n]*', '', re.sub(r'/\*.*?\*/', '', text, flags=re.S))


def of_crate(parameter):
    """The parameters of the machine that one of the crate is: a list of names with types, or none where it is not known."""
    if found := re.fullmatch(r'(\w+): &(mut )?\[(\w+)\]', parameter):
        name, mutable, entry = found.groups()
        return [f'{name}: *{"mut" if mutable else "const"} {entry}', f'{name}_length: usize']
    if found := re.fullmatch(r'(\w+): &mut (\w+)', parameter):
        return [f'{found[1]}: *mut {found[2]}']
    return [parameter] if re.fullmatch(r'\w+: (u8|u32|i32|u64|usize)', parameter) else None


def of_header(parameter):
    found = re.fullmatch(r'(const )?(\w+) (\*?)(\w+)', parameter)
    if not found or found[2] not in C_TYPES or (found[1] and not found[3]):
        return None
    pointer = ('*const ' if found[1] else '*mut ') if found[3] else ''
    return [f'{found[4]}: {pointer}{C_TYPES[found[2]]}']


def of_wrapper(parameter):
    found = re.fullmatch(r'(\w+): (\*const |\*mut |&mut |)(u8|u32|i32|u64|usize)', parameter)
    return [f'{found[1]}: {found[2].replace("&", "*")}{found[3]}'] if found else None


def declared(file, text, pattern, reading, faults):
    """The functions of a file: of each its answer and its parameters."""
    functions = {}
    for found in re.finditer(pattern, text):
        name, read = found['name'], [reading(parameter) for parameter in parts(found['between'])]
        if None in read:
            faults.append(f'{file}: {name} has a parameter that cannot be read: {parts(found["between"])[read.index(None)]}')
        if name in functions:
            faults.append(f'{file}: {name} stands there twice')
        functions[name] = (C_TYPES.get(found['answer'], found['answer']), [one for several in read for one in several or ['?']])
    return functions


def passed_on(argument):
    """The name and type's kind that an argument of the wrapper's call is for."""
    for ending, name, kind in (('.as_ptr()', '', '*const'), ('.as_mut_ptr()', '', '*mut'), ('.len()', '_length', 'usize')):
        if argument.endswith(ending):
            return argument[: -len(ending)].split('.')[-1] + name, kind
    return argument.removeprefix('&mut ').split('.')[-1], '*mut' if argument.startswith('&mut ') else ''


def call_faults(name, parameters, arguments):
    """The wrapper's call must name its parameters in order; a slot that is the only one may have another name."""
    slots = sum(argument.startswith('&mut ') for argument in arguments)
    if len(parameters) != len(arguments):
        return [f'{WRAPPER}: the call of {name} has {len(arguments)} arguments, not {len(parameters)}']
    faults = []
    for parameter, argument in zip(parameters, arguments):
        (wanted, kind), (is_for, pointer) = parameter.split(': '), passed_on(argument)
        alone = slots == 1 and argument.startswith('&mut ')
        if (wanted != is_for and not alone) or kind.startswith('*') != pointer.startswith('*') or not kind.startswith(pointer):
            faults.append(f'{WRAPPER}: the call of {name} has {argument} for {parameter}')
    return faults


def promised(text):
    """Of each function for other programs its parameters and clauses, and the names that stand in clauses, each with what it is."""
    heads = {name: ' '.join(head.split()) for head, name in re.findall(r'(?ms)^pub extern "C" (fn (\w+)\(.*?)\n?\{\n', text)}
    uses = re.findall(r'^ghost use ([^\s{};]+?)(?:\.\{([^}]*)\})?( as \w+)?;$', text, re.M)
    return heads, {path + '.' * bool(one) + one + alias for path, names, alias in uses for one in parts(names) or ['']}


def promise_faults(crate, library):
    (ours, uses), (theirs, known) = promised(crate), promised(library)
    faults = [f'{CRATE}: {name} does not promise what it does in {LIBRARY}' for name in sorted(ours) if ours[name] != theirs.get(name)]
    return faults + [f'{CRATE}: ghost use {one} is not in {LIBRARY}' for one in sorted(uses - known)]


def numbers(header, wrapper):
    """The numbers that both have names for; the wrapper has no name for done."""
    ours = {name: int(value) for name, value in re.findall(r'#define WICKCOLLAR_(\w+) (?:UINT\d+_C\()?(\d+)', header)}
    theirs = {name: int(value) for name, value in re.findall(r'pub const (\w+): \w+ = (\d+);', wrapper)}
    ours.pop('DONE', None)
    return ours, theirs


def check(root):
    """How many facts hold, and a line for each that does not."""
    crate, library, header, wrapper = (without_comments(Path(root, file).read_text()) for file in (CRATE, LIBRARY, HEADER, WRAPPER))
    faults = []
    ours = declared(CRATE, crate, r'#\[unsafe\(no_mangle\)\]\s*pub extern "C" fn (?P<name>\w+)\((?P<between>[^)]*)\) -> (?P<answer>\w+)', of_crate, faults)
    marks = max(crate.count('no_mangle'), crate.count('extern "C"'))
    if marks != len(ours) or not ours:
        faults.append(f'{CRATE} has {marks} marks for other programs, and {len(ours)} functions that can be read')
    faults += promise_faults(crate, library)
    both = (
        (HEADER, declared(HEADER, header, r'(?m)^(?P<answer>\w+) (?P<name>\w+)\((?P<between>[^)]*)\);', of_header, faults)),
        (WRAPPER, declared(WRAPPER, wrapper, r'pub fn (?P<name>\w+)\((?P<between>[^)]*)\) -> (?P<answer>\w+);', of_wrapper, faults)),
    )
    for file, theirs in both:
        for name in sorted(ours.keys() | theirs.keys()):
            if ours.get(name) != theirs.get(name):
                faults.append(f'{file}: {name} is {shown(theirs.get(name))}; in {CRATE} it is {shown(ours.get(name))}')
    calls = {name: parts(between) for name, between in re.findall(r'archive::(\w+)\(((?:[^()]|\(\))*)\)', wrapper)}
    for name, (_, parameters) in sorted(both[1][1].items()):
        faults += call_faults(name, parameters, calls[name]) if name in calls else [f'{WRAPPER}: {name} is declared and never called']
    in_header, in_wrapper = numbers(header, wrapper)
    for name in sorted(in_header.keys() | in_wrapper.keys()):
        if in_header.get(name) != in_wrapper.get(name):
            faults.append(f'{name} is {in_header.get(name)} in {HEADER}, {in_wrapper.get(name)} in {WRAPPER}')
    return max(0, 4 * len(ours) + len(in_header) - len(faults)), faults


def shown(function):
    return 'not there' if function is None else f'({", ".join(function[1])}) -> {function[0]}'
