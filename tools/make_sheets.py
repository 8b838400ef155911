#!/usr/bin/env python3
"""Writes the plan sheets that the program is run on: crates/drafting/data/sheets/.

docs/SHEETS.md has the layout. The tree that they are read on is: nodes 1 and 2 under 0, and nodes 3 and 4.
"""
import os
import struct

OUT = os.path.join(os.path.dirname(__file__), '..', 'crates', 'drafting', 'data', 'sheets')


def head(contract=1, network=2, supplier=7, total=1000, term=12, first=100, last=500):
    return struct.pack('>BBHIBHH', contract, network, supplier, total, term, first, last)


def text(words):
    return bytes([len(words)]) + words


def prices(*entries):
    return bytes([len(entries)]) + b''.join(struct.pack('>BI', node, price) for node, price in entries)


def groups(*entries):
    return bytes([len(entries)]) + b''.join(
        struct.pack('>BIB', order, units, len(nodes)) + bytes(nodes) for order, units, nodes in entries)


NAME = text(b'Alfa 10')
LINK = text(b'http://alfa.example/10')
PRICES = prices((1, 1000), (2, 2000))
GROUPS = groups((1, 50, [0]))
ALFA = head() + NAME + LINK + PRICES + GROUPS

SHEETS = {
    # read to a plan
    'alfa': ALFA,
    'beta': head(supplier=9, total=1500, first=0, last=65535) + text(b'Beta') + text(b'http://beta.example')
            + prices((0, 700), (3, 700), (4, 700)) + groups(),
    'gama': head(contract=2, supplier=12, total=0, term=0, first=0, last=65535) + text(b'Gama card')
            + text(b'http://gama.example') + prices((0, 3000), (3, 3000), (4, 3000)) + groups(),
    # refused by the layout
    'empty': b'',
    'cut': ALFA[:-1],
    'contract': head(contract=3) + ALFA[13:],
    'card': head(contract=2, network=1) + ALFA[13:],
    'days': head(first=500, last=499) + ALFA[13:],
    'letter': head() + text(b'Al\x1fa 10') + LINK + PRICES + GROUPS,
    'behind': ALFA + b'\x00',
    # refused by the draft
    'node': head() + NAME + LINK + prices((1, 1000), (5, 2000)) + GROUPS,
    'dear': head() + NAME + LINK + prices((1, 1000001)) + GROUPS,
    'branch': head() + NAME + LINK + prices((1, 1000), (0, 900)) + GROUPS,
    'order': head() + NAME + LINK + PRICES + groups((1, 50, [0]), (1, 10, [0])),
    'shared': head() + NAME + LINK + PRICES + groups((1, 50, [0]), (2, 10, [3, 1])),
    'bare': head() + NAME + LINK + prices((1, 1000)) + GROUPS,
}

os.makedirs(OUT, exist_ok=True)
for name, data in SHEETS.items():
    with open(os.path.join(OUT, name), 'wb') as f:
        f.write(data)
    print(name, len(data), data.hex(' '))
