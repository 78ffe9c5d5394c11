#!/usr/bin/env python3
"""crates.txt is in the order of the floors: a crate stands below what needs it, and every edge is one that the crate's own files need."""
import glob
import os
import re
import sys

# libraries of the kit that lines may list; std is there anyhow
KIT = set()
USE = re.compile(r'^(?:pub )?use (\w+)::(?:(\w+)|\{([^}]*)\});', re.M)


def listed():
    """Each crate with what it depends on, in the order of the file."""
    lines = (line.split('#')[0].strip() for line in open('crates.txt', encoding='utf-8'))
    return [(name.split()[0], edges.split()) for name, edges in (line.split(':') for line in lines if line)]


def imported(text):
    """What a file of code brings in, each name with its crate."""
    return [(crate, name) for crate, one, group in USE.findall(text) for name in [one, *re.findall(r'\w+', group)] if name]


def made_of(crate, name):
    """The crates whose types are fields of a struct."""
    text = open(f'crates/{crate}/src/lib.rt', encoding='utf-8').read()
    struct = re.search(rf'pub struct {name} {{(.*?)}}', text, re.S)
    fields = set(re.findall(r': (\w+)', struct.group(1))) if struct else set()
    return {other for other, kind in imported(text) if kind in fields}


def needed(crate):
    """The crates that a crate's files name, and those that the types it uses are made of."""
    names = set()
    for path in glob.glob(f'crates/{crate}/**/*', recursive=True):
        if path.endswith(('.antt', '.rt')) and not path.startswith(f'crates/{crate}/out/'):
            text = open(path, encoding='utf-8').read()
            names |= set(re.findall(r'\bRattle\.(\w+)', text))
            if path.endswith('.rt'):
                names |= set(re.findall(r'\b(\w+)::', text))
                for other, kind in imported(text):
                    names |= made_of(other, kind) if os.path.exists(f'crates/{other}') else set()
    return names - {crate}


def main():
    os.chdir(os.path.join(os.path.dirname(os.path.abspath(__file__)), '..'))
    above, faults = set(KIT), []
    crates = listed()
    names = {name for name, _ in crates} | KIT
    for crate, edges in crates:
        need = needed(crate) & names
        faults += [f'{crate} needs {edge}, which stands below it' for edge in edges if edge not in above]
        faults += [f'{crate} does not need {edge}' for edge in edges if edge not in need]
        faults += [f'{crate} needs {edge} and does not list it' for edge in need - set(edges)]
        above.add(crate)
    if faults:
        sys.exit('crates.txt: ' + '; '.join(faults))


main()
