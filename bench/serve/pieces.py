#!/usr/bin/env python3
"""What bodies in pieces do to HEADs: `serve`, which gathers bodies, `run`, which stores them in pieces, and the least server
(least.c), by turns in one run.

    bench/serve/pieces.py PROGRAM [TURNS]

needs gcc and at least two processors. In each turn four clients send PATCHes of 16 MiB for two seconds, while another asks for an
upload's offset again and again, each time a millisecond after its last reply; of `run` so they do with PATCHes of 240 MiB. Then
four connections create uploads with 16 MiB, which the least server can't, and four and 64 send PATCHes of 1 MiB. It prints the
table of README.md: medians over the turns (5 unless told). The servers have one half of the processors, and the clients the other;
of that the client that asks has one by itself, where there are two.
"""
import multiprocessing
import os
import re
import socket
import statistics
import subprocess
import sys
import tempfile
import time
from measure import MIB, SECONDS, Server, built, exchange, patches, request

PORTS = {'serve': 18080, 'run': 18081, 'least': 18082}
BLOCKS = ['--blocks', '262144']
WORDS = {
    'serve': ['serve', '--forever', '--max-size', '16777216', *BLOCKS],
    'run': ['run', *BLOCKS],
}
SIZES = {'serve': (16,), 'run': (16, 240), 'least': (16,)}


def creations(port, end, number, note, size):
    """Creates uploads with so many bytes again and again, each of which it then deletes, and notes each."""
    connection, body = socket.create_connection(('127.0.0.1', port)), bytes(size)
    fields = [f'Upload-Length: {size}', 'Content-Type: application/offset+octet-stream']
    while time.monotonic() < end:
        made = exchange(connection, request('POST', '/files/acme', fields, body))
        note()
        exchange(connection, request('DELETE', re.search(rb'Location: (\S+)', made).group(1).decode(), []))


def counted(work, port, end, number, sent, size, processors):
    """Sends bodies of so many bytes until the end, and counts them."""
    def count():
        with sent.get_lock():
            sent.value += 1
    os.sched_setaffinity(0, processors)
    work(port, end, number, count, size)


def beside_bodies(work, server, mebibytes, processors):
    """How long each HEAD took while four clients sent so much at once, and how many megabytes they sent in a second."""
    end, sent = time.monotonic() + SECONDS, multiprocessing.Value('i', 0)
    words = server.port, end, 0, sent, mebibytes * MIB, processors[1:] or processors
    busy = [multiprocessing.Process(target=counted, args=(work, *words)) for _ in range(4)]
    start = time.monotonic()
    for client in busy:
        client.start()
    os.sched_setaffinity(0, processors[:1])
    connection, data, took = socket.create_connection(('127.0.0.1', server.port)), request('HEAD', server.small, []), []
    while time.monotonic() < end:
        asked = time.monotonic()
        exchange(connection, data)
        took.append(time.monotonic() - asked)
        time.sleep(0.001)
    for client in busy:
        client.join()
    os.sched_setaffinity(0, processors)
    return took, sent.value * mebibytes * MIB / 1e6 / (time.monotonic() - start)


def turn(server, sizes, load, processors):
    """The numbers of a turn, under their names."""
    numbers = {}
    for mebibytes in sizes:
        took, rate = beside_bodies(patches, server, mebibytes, processors)
        numbers |= {
            f'HEADs above 1 ms beside PATCHes of {mebibytes} MiB': 100 * sum(it > 0.001 for it in took) / len(took),
            f'the slowest hundredth of HEADs beside {mebibytes} MiB': 1000 * sorted(took)[len(took) * 99 // 100],
            f'PATCHes of {mebibytes} MiB, 4 connections': rate,
        }
    if server.port != PORTS['least']:
        numbers['creations with 16 MiB, 4 connections'] = beside_bodies(creations, server, 16, processors)[1]
    for count in (4, 64):
        words = [load, 'patches', str(server.port), str(count), str(SECONDS), str(MIB)]
        done = int(subprocess.run(words, capture_output=True, check=True).stdout)
        numbers[f'PATCHes of 1 MiB, {count} connections'] = done * MIB / 1e6 / SECONDS
    return numbers


def shown(what, numbers):
    """The median of a row, with its unit; nothing where it was not measured."""
    if not all(what in it for it in numbers):
        return ''
    unit = '%' if 'above' in what else 'ms' if 'slowest' in what else 'MB/s'
    return f'{statistics.median(it[what] for it in numbers):,.1f} {unit}'


def main():
    program, turns = sys.argv[1], int(sys.argv[2]) if len(sys.argv) > 2 else 5
    processors = sorted(os.sched_getaffinity(0))
    for_servers, for_clients = processors[:len(processors) // 2], processors[len(processors) // 2:]
    with tempfile.TemporaryDirectory() as folder:
        load, least = built(folder, 'load'), built(folder, 'least')
        servers = {}
        for name, port in PORTS.items():
            words = [program, *WORDS.get(name, ()), '--workers', str(len(for_servers)), '--idle', '0', '--port', str(port), 'acme:262143', 'beta:1']
            servers[name] = Server(port, words if name in WORDS else [least, str(port), '70'], for_servers)
        os.sched_setaffinity(0, for_clients)
        found = {name: [] for name in servers}
        for server in servers.values():
            server.create()
        for _ in range(turns):
            for name, server in servers.items():
                found[name].append(turn(server, SIZES[name], load, for_clients))
        print(f"| what | {' | '.join(f'`{name}`' for name in servers)} |\n|{'---|' * (1 + len(servers))}")
        for what in found['run'][0]:
            print(f"| {what} | {' | '.join(shown(what, numbers) for numbers in found.values())} |")
        for server in servers.values():
            server.process.terminate()
            server.process.wait()


if __name__ == '__main__':
    main()
