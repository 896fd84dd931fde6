#!/usr/bin/env python3
"""old_first_run.py FOLDER: writes the records that the first of two_runs leaves, as a program of version 1 wrote them. docs/FORMATS.md has the
form; this shares no code with the program."""
import os
import sys

TX = '00000001' '0174' '01' '00' '0161'
records = {
    # the vote prepared in ballot 0 is accepted
    'a0': ['0102' + TX + '00' '00000000' '01'],
    # no ballot was begun
    'l0': [],
    # the vote prepared, with 6b put to 31, and the outcome
    'r0': ['0104' + TX + '01' '016b01000131', '0106' + TX],
}
for name, bodies in records.items():
    with open(os.path.join(sys.argv[1], name + '.rec'), 'wb') as record:
        for body in map(bytes.fromhex, bodies):
            record.write(len(body).to_bytes(4, 'big') + body)
