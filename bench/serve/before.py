#!/usr/bin/env python3
"""What the program of before a change and the program of now do, one beside the other.

    bench/serve/before.py BEFORE NOW

Both are up at once with nothing asked for, and are measured by turns of 0.6 seconds, nine of each; it prints the rate of the
first, and the median of the ratios of the second to it. It needs gcc and two processors.
"""
import os
import sys
from measure import built
from watched import in_memory, row, start

TURNS = 9


def measure(folder, programs):
    processors = sorted(os.sched_getaffinity(0))
    half = len(processors) // 2
    load = built(folder, 'load')
    servers = []
    try:
        for place, program in enumerate(programs):
            servers.append(start(program, folder, 18080 + place, [], processors[:half]))
        os.sched_setaffinity(0, processors[half:])
        print('| what | a second, before | now |\n|---|---|---|')
        for count in (1, 4, 16, 64):
            row(load, servers, 'heads', count, None, 'HEADs', TURNS)
        for size, name in ((4096, '4 KiB'), (65536, '64 KiB'), (1048576, '1 MiB')):
            for count in (1, 4, 16, 64):
                row(load, servers, 'patches', count, size, f'PATCHes of {name}', TURNS)
    finally:
        for server in servers:
            server.process.terminate()
            server.process.wait()


if __name__ == '__main__':
    in_memory(measure, sys.argv[1:3])
