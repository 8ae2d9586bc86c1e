"""Which exported calls the compiler left out of line in the static library, and what it left of the others."""
import glob
import os
import re
import subprocess

CRATES = ['records', 'lists', 'edits']
PATH = r'[a-z_][a-z_0-9]*(?:::[a-z_][a-z_0-9]*)*'


class Function:
    def __init__(self, name, head, body, known):
        self.name = name
        crate, module = name.split('::')[:2]
        self.exported = is_exported(name, head)
        self.calls = {resolved(call, crate, module, known) for call in re.findall(rf'(?<![\w:])({PATH})\(', body)}


def is_exported(name, head):
    """A call of the account: it takes the state and the two slices, and asks for nothing."""
    place = name.startswith('lists::cursor::') or name.startswith('edits::')
    lent = re.search(r'\(\s*b: Buffer,\s*first: &(mut )?\[u32\],\s*second: &(mut )?\[u32\]', head)
    return bool(place and head.startswith('pub ') and lent and 'requires' not in head)


def resolved(call, crate, module, known):
    """A path of the source as the library's symbols have it."""
    parts = call.split('::')
    if len(parts) == 1:
        return '::'.join(known.get(call, [crate, module, call]))
    return '::'.join(known.get(parts[0], [crate, parts[0]] if len(parts) == 2 else [parts[0]]) + parts[1:])


def brought(line):
    """The paths that a `use` names: `a::{b, c::d}` has a::b and a::c::d."""
    start, brace, inside = line.partition('{')
    parts = [part for part in start.strip().split('::') if part]
    return [parts + use.strip().split('::') for use in inside.rstrip('} \n').split(',') if use.strip()] if brace else [parts]


def functions(root):
    """The functions of the exported calls' crates, by name."""
    found = {}
    paths = [path for crate in CRATES for path in glob.glob(os.path.join(root, 'crates', crate, 'src', '*.rt'))]
    for path in paths:
        crate, module = path.split(os.sep)[-3], os.path.basename(path)[:-3]
        text = open(path).read()
        known = {}
        for line in re.findall(r'^use ([^;]+);', text, re.M):
            for use in brought(line):
                known[use[-1]] = [crate if part == 'super' else part for part in use]
        for head, name, body in re.findall(r'^((?:pub(?:\(crate\))? )?fn (\w+)(?:<.*?>)?\(.*?)\{\n(.*?)^\}', text, re.M | re.S):
            full = f'{crate}::{module}::{name}'
            found[full] = Function(full, head, body, known)
    return found


def symbols(library):
    """Bytes of each function that has code of its own; what stands behind a dot in a name is the compiler's."""
    said = subprocess.run(['nm', '-S', library], capture_output=True, text=True, check=True).stdout
    sizes = {}
    for size, name in re.findall(r'^[0-9a-f]+ ([0-9a-f]+) [tT] ([^.\n]*)', said, re.M):
        sizes[name] = sizes.get(name, 0) + int(size, 16)
    return sizes


def callers(library):
    """From where each function is called: a list with each place's function."""
    said = subprocess.run(['objdump', '-dr', '--no-show-raw-insn', library], capture_output=True, text=True, check=True).stdout
    places, inside = {}, ''
    for line in said.splitlines():
        start = re.match(r'^[0-9a-f]+ <([^.]*).*>:$', line)
        target = re.search(r'R_X86_64_(?:PLT32|PC32)\s+(?:\.text\.)?([^.]*?)(?:\..*)?-0x4$', line)
        if start:
            inside = start.group(1)
        elif target:
            places.setdefault(target.group(1), []).append(inside)
    return places


def stays(name, known, kept, seen):
    """What is called out of line where `name` is inlined."""
    out = set()
    for call in known[name].calls:
        if call in kept:
            out.add(call)
        elif call in known and call not in seen:
            out |= stays(call, known, kept, seen | {call})
    return out


def tell(name, kept, places):
    at = places.get(name, [])
    print(f'{name:50}{kept[name]:6} bytes; calls of it: {len(at)}, in {len(set(at))} functions')


def report(root, library):
    known, kept, places = functions(root), symbols(library), callers(library)
    calls = sorted(name for name in known if known[name].exported)
    outside = [name for name in calls if name in kept]
    print(f'\nExported calls left out of line: {len(outside)} of {len(calls)}\n')
    for name in outside:
        tell(name, kept, places)
    print('\nInlined, and what below them is called out of line:\n')
    for name in calls:
        if name not in kept:
            print(f'{name:50}{", ".join(sorted(stays(name, known, kept, {name}))) or "nothing"}')
    below = sorted(name for name in kept if name in known and not known[name].exported)
    print(f'\nFunctions below the exported calls left out of line: {len(below)}\n')
    for name in below:
        tell(name, kept, places)
    print()
