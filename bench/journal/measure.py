#!/usr/bin/env python3
"""What `serve --journal` does beside the least server in C that keeps its changes, and beside `serve` without a journal.

    bench/journal/measure.py PROGRAM FOLDER

FOLDER is on the disk that is to be measured; what is written to it is removed. It needs gcc and at least two processors, of
which the servers have one half and the clients the other. It prints the two tables of README.md.
"""
import os
import shutil
import signal
import socket
import statistics
import subprocess
import sys
import tempfile
import time

SECONDS = 2
ROUNDS = 3
MIB = 1048576
SERVE = os.path.join(os.path.dirname(os.path.abspath(__file__)), '..', 'serve')
TENANTS = ['acme', 'acme-1', 'acme-2', 'acme-3']
PROCESSORS = sorted(os.sched_getaffinity(0))
FOR_SERVERS, FOR_CLIENTS = PROCESSORS[:len(PROCESSORS) // 2], PROCESSORS[len(PROCESSORS) // 2:]


def started(words):
    return subprocess.Popen(words, stdout=subprocess.PIPE, preexec_fn=lambda: os.sched_setaffinity(0, FOR_SERVERS))


def serve(program, port, blocks, words):
    """`serve` with so many blocks, shared out among the tenants, once it listens; and how many seconds it took to."""
    begun = time.monotonic()
    process = started([program, 'serve', '--port', str(port), '--workers', str(len(FOR_SERVERS)), '--forever', '--idle', '0',
                       '--max-size', str(16 * MIB), '--blocks', str(blocks), *words,
                       *(f'{tenant}:{blocks // len(TENANTS)}' for tenant in TENANTS)])
    assert process.stdout.readline().startswith(b'listening')
    return process, time.monotonic() - begun


def ended(process):
    process.send_signal(signal.SIGKILL)
    process.wait()


def rate(load, port, count, size):
    """How many PATCHes of so many bytes are answered in a second on so many connections."""
    words = [load, 'patches', str(port), str(count), str(SECONDS), str(size)]
    return int(subprocess.run(words, capture_output=True, check=True).stdout) / SECONDS


def row(program, load, least, folder, size, count):
    """The median rates of the three, by turns."""
    kept, bare = os.path.join(folder, 'kept'), os.path.join(folder, 'least')
    servers = [serve(program, 18090, 131072, ['--journal', kept])[0], started([least, '18091', '300', bare]),
               serve(program, 18092, 131072, [])[0]]
    time.sleep(0.5)
    try:
        rounds = [[rate(load, port, count, size) for port in (18090, 18091, 18092)] for _ in range(ROUNDS)]
    finally:
        for server in servers:
            ended(server)
        shutil.rmtree(kept)
        os.remove(bare)
    return [statistics.median(rates) for rates in zip(*rounds)]


def rates(program, load, least, folder):
    print('| what | with a journal | the least server that keeps | without a journal | to the least |')
    print('|---|---|---|---|---|')
    for size, name in ((4096, '4 KiB'), (65536, '64 KiB'), (MIB, '1 MiB')):
        for count in (1, 4, 16, 256):
            ours, bare, without = row(program, load, least, folder, size, count)
            cells = ' | '.join(f'{each:,.0f} ({each * size / 1e6:,.0f} MB/s)' for each in (ours, bare, without))
            print(f'| PATCHes of {name} a second, {count} connections | {cells} | {ours / bare:.2f} |', flush=True)


def fill(port, uploads, size):
    """Creates so many uploads with all their bytes, the same number for each tenant."""
    with socket.create_connection(('127.0.0.1', port)) as connection:
        replies = connection.makefile('rb')
        for number in range(uploads):
            head = (f'POST /files/{TENANTS[number % len(TENANTS)]} HTTP/1.1\r\nHost: x\r\nTus-Resumable: 1.0.0\r\n'
                    f'Upload-Length: {size}\r\nContent-Type: application/offset+octet-stream\r\nContent-Length: {size}\r\n\r\n')
            connection.sendall(head.encode() + bytes(size))
            assert b' 201 ' in replies.readline()
            while replies.readline() != b'\r\n':
                pass


def seconds_to_read(path):
    """How long a program takes that only reads the files."""
    begun = time.monotonic()
    for folder, _, files in os.walk(path):
        for name in files:
            with open(os.path.join(folder, name), 'rb', buffering=0) as file:
                while file.read(MIB):
                    pass
    return time.monotonic() - begun


def starts(program, folder):
    print('\n| live bytes | start without a journal | start with it | of these, to read the files |')
    print('|---|---|---|---|')
    kept = os.path.join(folder, 'kept')
    for uploads, name in ((4, '16 MiB'), (256, '1 GiB')):
        process, _ = serve(program, 18090, uploads * 1024, ['--journal', kept])
        fill(18090, uploads, 4 * MIB)
        ended(process)
        process, bare = serve(program, 18092, uploads * 1024, [])
        ended(process)
        reading = seconds_to_read(kept)
        process, took = serve(program, 18090, uploads * 1024, ['--journal', kept])
        ended(process)
        shutil.rmtree(kept)
        print(f'| {name} | {bare:.2f} s | {took:.2f} s | {reading:.2f} s |', flush=True)


def main():
    program, folder = os.path.abspath(sys.argv[1]), tempfile.mkdtemp(dir=sys.argv[2])
    tools = tempfile.mkdtemp()
    os.sched_setaffinity(0, FOR_CLIENTS)
    try:
        for name in ('load', 'least'):
            subprocess.run(['gcc', '-O2', '-pthread', '-o', f'{tools}/{name}', f'{SERVE}/{name}.c'], check=True)
        print(f'{len(FOR_SERVERS)} processors for the servers, {len(FOR_CLIENTS)} for the clients\n')
        rates(program, f'{tools}/load', f'{tools}/least', folder)
        starts(program, folder)
    finally:
        shutil.rmtree(folder, ignore_errors=True)
        shutil.rmtree(tools, ignore_errors=True)


main()
