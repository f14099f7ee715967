#!/usr/bin/env python3
"""A folder of files through `run`, with cuts and joins, and what it comes to.

    bench/serve/folder.py PROGRAM [FILES [SEED]]

sends so many files (10,000 unless told) of 1 KiB to 4 MiB over 16 connections: most in PATCHes of at most 1 MiB, one of ten with
its creation, one of ten cut in the midst of a PATCH and resumed from where a HEAD tells, one of ten as two parts and their join.
One of a hundred is sent and got by curl. Then all are got over 16 connections, and each SHA-256 is compared; then all are
deleted. Besides, a tenant is filled with 65,536 creations, and one more is refused. It prints what came of it, and the server's
memory beside the formula of docs/OPERATIONS.md. It wants memory for the files, some 5 GiB.
"""
import hashlib
import http.client
import math
import queue
import random
import socket
import subprocess
import sys
import tempfile
import threading
import time
from measure import MIB, Server, request

PORT = 18096
BLOCK = 65536
CONNECTIONS = 16
UPLOADS = 65536
TYPED = {'Tus-Resumable': '1.0.0', 'Content-Type': 'application/offset+octet-stream'}


def content(seed, number):
    """The bytes of a file: as many sizes near 1 KiB as near 4 MiB, by their logarithm."""
    dice = random.Random(f'{seed} {number}')
    return dice.randbytes(int(1024 * 4096 ** dice.random()))


class Client:
    """One connection, which is made anew before the server has answered as many requests as it does on one."""

    def __init__(self):
        self.connection = http.client.HTTPConnection('127.0.0.1', PORT)
        self.asked = self.cuts = 0

    def ask(self, method, path, status, fields={}, body=None):
        """Sends a request whose reply has to have this status."""
        self.asked += 1
        if self.asked % 4000 == 0:
            self.connection.close()
        self.connection.request(method, path, body, {'Tus-Resumable': '1.0.0', **fields})
        reply = self.connection.getresponse()
        got = reply.read()
        assert reply.status == status, (method, path, reply.status, got[:80])
        return reply, got

    def create(self, tenant, fields, body=None):
        return self.ask('POST', f'/files/{tenant}', 201, fields, body)[0].getheader('Location')

    def send(self, path, data, offset=0):
        """The rest of an upload, in PATCHes of at most 1 MiB."""
        while offset < len(data):
            some = data[offset:offset + MIB]
            self.ask('PATCH', path, 204, {**TYPED, 'Upload-Offset': str(offset)}, some)
            offset += len(some)

    def send_cut(self, path, data):
        """The first half of one PATCH of all, whose connection then ends; then what a HEAD says is lacking."""
        fields = ['Upload-Offset: 0', 'Content-Type: application/offset+octet-stream']
        whole = request('PATCH', path, fields, data)
        with socket.create_connection(('127.0.0.1', PORT)) as cut:
            cut.sendall(whole[:len(whole) - len(data) + len(data) // 2])
        self.cuts += 1
        for _ in range(5):
            offset = int(self.ask('HEAD', path, 200)[0].getheader('Upload-Offset'))
            try:
                return self.send(path, data, offset)
            except (AssertionError, ConnectionError):  # what was cut came to the server behind this HEAD, or behind this PATCH
                self.connection.close()
        raise AssertionError(path)

    def send_parts(self, tenant, data):
        """Two partial uploads, and the final one of both."""
        half, paths = len(data) // 2, []
        for part in (data[:half], data[half:]):
            paths.append(self.create(tenant, {'Upload-Length': str(len(part)), 'Upload-Concat': 'partial'}))
            self.send(paths[-1], part)
        return self.create(tenant, {'Upload-Concat': f'final;{paths[0]} {paths[1]}'})

    def send_file(self, way, data):
        length = {'Upload-Length': str(len(data))}
        if way == 0:
            return self.create('photos', {**length, **TYPED}, data)
        if way == 2:
            return self.send_parts('photos', data)
        path = self.create('photos', length)
        self.send_cut(path, data) if way == 1 else self.send(path, data)
        return path


def curled(data):
    """A file that curl sends and gets."""
    with tempfile.NamedTemporaryFile() as file:
        file.write(data)
        file.flush()
        words = ['curl', '-sS', '-D', '-', '-o', '/dev/null', '-H', 'Tus-Resumable: 1.0.0']
        url = f'http://127.0.0.1:{PORT}'
        made = subprocess.run([*words, '-H', f'Upload-Length: {len(data)}', '-X', 'POST', f'{url}/files/photos'],
                              capture_output=True, text=True, check=True).stdout
        path = next(line.split()[1] for line in made.splitlines() if line.startswith('Location: '))
        sent = subprocess.run([*words, '-X', 'PATCH', '-H', 'Upload-Offset: 0', '-H', 'Content-Type: application/offset+octet-stream',
                               '-H', 'Expect:', '--data-binary', f'@{file.name}', url + path], capture_output=True, text=True, check=True).stdout
        assert ' 204 ' in sent, sent
        got = subprocess.run(['curl', '-sS', url + path], capture_output=True, check=True).stdout
        assert got == data
    return path


def over_connections(work, jobs):
    """Does the work for each of these over 16 connections. Gives how long it took, and how often a connection was cut."""
    left, clients, faults, start = queue.SimpleQueue(), [Client() for _ in range(CONNECTIONS)], [], time.monotonic()
    for job in jobs:
        left.put(job)

    def serve(client):
        try:
            while not left.empty() and not faults:
                work(client, left.get_nowait())
        except queue.Empty:
            pass
        except Exception as fault:
            faults.append(fault)
    threads = [threading.Thread(target=serve, args=[client]) for client in clients]
    for thread in threads:
        thread.start()
    for thread in threads:
        thread.join()
    if faults:
        raise faults[0]
    return time.monotonic() - start, sum(client.cuts for client in clients)


def files(server, count, seed):
    """Sends, gets and deletes the files."""
    paths, sizes = {}, {}

    def send(client, number):
        data = content(seed, number)
        sizes[number] = len(data)
        paths[number] = curled(data) if number % 100 == 99 else client.send_file(number % 10, data)

    def get(client, number):
        got = client.ask('GET', paths[number], 200)[1]
        assert hashlib.sha256(got).digest() == hashlib.sha256(content(seed, number)).digest(), number

    took, cuts = over_connections(send, range(count))
    total = sum(sizes.values())
    print(f'{count} files, {total / MIB:.0f} MiB, sent in {took:.0f} s; {cuts} were cut and resumed, {count // 10} joined of parts')
    print(f'resident: {server.resident() / MIB:.0f} MiB')
    took, _ = over_connections(get, range(count))
    print(f'got in {took:.0f} s; each SHA-256 is that of its file')
    took, _ = over_connections(lambda client, number: client.ask('DELETE', paths[number], 204), range(count))
    print(f'deleted in {took:.0f} s')


def creations():
    """65,536 uploads of one tenant, and one more."""
    took, _ = over_connections(lambda client, _: client.create('notes', {'Upload-Length': '1'}), range(UPLOADS))
    refused = Client().ask('POST', '/files/notes', 507, {'Upload-Length': '1'})[1]
    print(f'{UPLOADS} creations in {took:.0f} s; the next is refused: {refused.decode().strip()}')


def main():
    program, count, seed = sys.argv[1], int((sys.argv[2:] or ['10000'])[0]), (sys.argv[3:] or ['1'])[0]
    blocks = sum(math.ceil(1024 * 4096 ** random.Random(f'{seed} {number}').random() / BLOCK) + 1 for number in range(count))
    words = ['run', '--port', str(PORT), '--uploads', str(UPLOADS), '--blocks', str(blocks + 1), '--block-size', str(BLOCK),
             '--idle', '0', f'photos:{blocks}', 'notes:1']
    server = Server(PORT, [program, *words], range(1024))
    try:
        print(f'resident at the start: {server.resident() / MIB:.0f} MiB')
        files(server, count, seed)
        creations()
        print(f'resident at the end: {server.resident() / MIB:.0f} MiB')
    finally:
        server.process.terminate()
        server.process.wait()


main()
