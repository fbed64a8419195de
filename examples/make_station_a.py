#!/usr/bin/env python3
"""make_station_a.py [FOLDER]: writes Station A of document 01 into a folder, else into examples/station-a: the station file, the
samples, and the rows that the paper prints."""
import os, struct, sys

FOLDER = sys.argv[1] if len(sys.argv) > 1 else os.path.join(os.path.dirname(os.path.abspath(__file__)), 'station-a')
CONTROL = [10000, 50, 40, 90, 1, 0, 3, 0, 2]
BATTERY = (20000, 90, 0, 9000000, 1000000)
SETS = [
    [100000, 2, 1, 0, 0, 2, 0, 2000, 1000, 27000] + [0] * 6,
    [60000, 1, 1, 0, 0, 2, 0, 1500, 1000, 16500] + [0] * 6,
]
MASKS = [2, 1, 3]
SAMPLES = '''t,LoadP,PvAvailP,ShedLoadP
0,40,10,0
1,75,10,5
2,75,10,5
3,30,40,5
'''
ROWS = '''t,load,shed,solar,charge,spill,give,diesel,unserved,on,sets,call,store
0,40000,0,10000,0,0,0,30000,0,2,1,1,1000000
1,75000,0,10000,0,0,5000,60000,0,2,1,2,500000
2,75000,5000,10000,0,0,0,60000,0,2,1,2,500000
3,30000,5000,0,20000,20000,0,25000,0,3,2,2,2300000
4,30000,0,0,20000,20000,0,30000,0,1,1,1,4100000
set,run,starts,stops,energy,fuel
1,2,1,0,45625,15406
2,4,1,1,159375,45843
'''


def station():
    offsets = [32, 68, 100, 100 + 64 * len(SETS)]
    counts = [1, 1, len(SETS), len(MASKS)]
    contents = b''.join(struct.pack('<HHI', kind + 1, counts[kind], offsets[kind]) for kind in range(4))
    sets = b''.join(struct.pack('<16I', *s) for s in SETS)
    return contents + struct.pack('<9I', *CONTROL) + struct.pack('<IIQQQ', *BATTERY) + sets + bytes(MASKS)


os.makedirs(FOLDER, exist_ok=True)
for name, content in [('station', station()), ('samples.csv', SAMPLES.encode()), ('rows.csv', ROWS.encode())]:
    with open(os.path.join(FOLDER, name), 'wb') as f:
        f.write(content)
