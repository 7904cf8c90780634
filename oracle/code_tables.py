#!/usr/bin/env python3
"""Prints the rows of the original's code tables, from its sources, in the form of `code_tables`:

    oracle/code_tables.py FOLDER_OF_THE_RUST_SOURCES >crates/code_tables/stdout

LMAX and RMAX are the cells that the original prints as functions of their own."""
import re
import sys

folder = sys.argv[1] + '/'
tcoef = open(folder + 'tcoef_tables.rs').read()
reversible = open(folder + 'rvlc_tables.rs').read()
texture = open(folder + 'texture.rs').read()
macroblock = open(folder + 'macroblock.rs').read()


def rows(name, text):
    start = text.index('const ' + name)
    lines = text[start:text.index('];', start)].split('\n')[1:]
    found = [re.match(r'\s*\((.*)\),', line.split('//')[0]) for line in lines]
    return [[x.strip() for x in m.group(1).split(',')] for m in found if m]


def cells(name):
    start = texture.index('fn ' + name)
    text = texture[start:texture.index('\n}', start)]
    pattern = r'\((true|false), (\d+)(?:\.\.=(\d+))?\) => Some\((\d+)\)'
    return [(m[1] == 'true', int(m[2]), int(m[3] or m[2]), int(m[4])) for m in re.finditer(pattern, text)]


def look(table, last, x):
    return next(v for l, low, high, v in table if l == (last == '1') and low <= int(x) <= high)


for name in ('intra', 'inter'):
    lmax, rmax = cells('lmax_' + name), cells('rmax_' + name)
    for code, length, last, run, level in rows('TCOEF_' + name.upper(), tcoef):
        assert len(code) == int(length) + 2
        print(name, code[2:], last, run, level, look(lmax, last, run), look(rmax, last, level))
for name, first in (('rvlc-intra', 2), ('rvlc-inter', 5)):
    for row in rows('RVLC_TCOEF', reversible):
        assert len(row[0]) == int(row[1]) + 2
        print(name, row[0][2:], *row[first:first + 3])
for name in ('luminance', 'chrominance'):
    for row in rows('DC_SIZE_' + name.upper(), texture):
        print(name, row[0][2:], row[2])
for code, length, kind, cbpc in rows('MCBPC_I_TABLE', macroblock):
    bits = code[2:].replace('_', '')
    assert len(bits) == int(length)
    print('mcbpc', bits, *(['stuffing'] if kind == '5' else [kind, int(cbpc, 2)]))
for code, length, intra, _ in rows('CBPY_4_TABLE', macroblock):
    bits = code[2:].replace('_', '')
    assert len(bits) == int(length)
    print('cbpy', bits, int(intra, 2))
