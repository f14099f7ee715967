#!/usr/bin/env python3
"""What watching costs: the same program with nothing asked for, with --log, and with --log and --metrics.

    bench/serve/watched.py PROGRAM

All three are up at once, and are measured by turns of 0.6 seconds, five of each; it prints the median of the ratios of each to
the first. Numbers are asked for once a second. The log is a file in memory. It needs gcc and two processors.
"""
import os
import re
import shutil
import socket
import statistics
import subprocess
import sys
import tempfile
import threading
import time
from measure import Server, built

SECONDS = 0.6
TURNS = 5


def asked_each_second(port, is_over, lost):
    """Asks for numbers each second, as Prometheus would more rarely, and keeps how many lines were lost."""
    while not is_over.wait(1):
        text = b''
        with socket.create_connection(('127.0.0.1', port), timeout=10) as asker:
            asker.sendall(b'GET /metrics HTTP/1.1\r\nHost: x\r\nConnection: close\r\n\r\n')
            while part := asker.recv(65536):
                text += part
        lost.append(int(re.search(rb'^cadrusmo_log_lines_lost_total (\d+)$', text, re.M).group(1)))


def start(program, folder, port, words, processors):
    ours = [program, 'serve', '--port', str(port), '--workers', str(len(processors)), '--forever', '--max-size', '16777216',
            '--blocks', '131073', *words, 'acme:131072', 'beta:1']
    return Server(port, ours, processors).create()


def done(load, server, kind, count, what):
    words = [load, kind, str(server.port), str(count), str(SECONDS), str(what)]
    begun = time.monotonic()
    counted = int(subprocess.run(words, capture_output=True, check=True).stdout)
    return counted / (time.monotonic() - begun)


def row(load, servers, kind, count, what, name, turns=TURNS):
    rates = [[done(load, server, kind, count, what or server.small) for server in servers] for _ in range(turns)]
    ratios = [statistics.median(turn[place] / turn[0] for turn in rates) for place in range(1, len(servers))]
    plain = statistics.median(turn[0] for turn in rates)
    print(f'| {name}, {count} connections | {plain:,.0f} | {" | ".join(f"{ratio:.2f}" for ratio in ratios)} |', flush=True)


def measure(folder, program):
    processors = sorted(os.sched_getaffinity(0))
    half = len(processors) // 2
    load = built(folder, 'load')
    log, both = f'{folder}/log', f'{folder}/both'
    servers, is_over, lost = [], threading.Event(), []
    asker = threading.Thread(target=asked_each_second, args=(18083, is_over, lost))
    try:
        for port, words in ((18080, []), (18081, ['--log', log]), (18082, ['--log', both, '--metrics', '18083'])):
            servers.append(start(program, folder, port, words, processors[:half]))
        os.sched_setaffinity(0, processors[half:])
        asker.start()
        print('| what | a second, with nothing asked for | with `--log` | with `--log` and `--metrics` |\n|---|---|---|---|')
        for count in (1, 4, 16, 64):
            row(load, servers, 'heads', count, None, 'HEADs')
        for size, name in ((4096, '4 KiB'), (65536, '64 KiB')):
            for count in (1, 4, 16, 64):
                row(load, servers, 'patches', count, size, f'PATCHes of {name}')
        print(f'\n{sum(1 for _ in open(both, "rb")):,} lines of the log were written by the last, and {lost[-1]:,} were lost')
    finally:
        is_over.set()
        if asker.is_alive():
            asker.join()
        for server in servers:
            server.process.terminate()
            server.process.wait()


def in_memory(measure, *given):
    """Measures with a folder in memory, which is removed after it."""
    folder = tempfile.mkdtemp(dir='/dev/shm')
    try:
        measure(folder, *given)
    finally:
        shutil.rmtree(folder, ignore_errors=True)


if __name__ == '__main__':
    in_memory(measure, sys.argv[1])
