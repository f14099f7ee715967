#!/usr/bin/env python3
"""How large the file of a journal becomes while uploads come and go.

    bench/journal/churn.py PROGRAM FOLDER [SECONDS]

Eight clients create uploads, send their bytes and delete them, as fast as they can, so that a minute has as much as hours of
most servers. Twenty times a second the size of the file is held against three times the bytes of the blocks that were held, at
most, in the last two seconds, and 64 MiB and the room ahead: a file that was longer before is cut within one. In the end the server is killed and started again, and each upload that is left has the bytes that
were sent. It fails where the file was larger, or something was not as it was told.
"""
import http.client
import os
import random
import re
import shutil
import socket
import subprocess
import sys
import threading
import time

MIB = 1 << 20
BLOCK = 4096
BLOCKS = 16384
WORKERS = 2
CLIENTS = 8
PART = 256 << 10
MOST = 3 * MIB
# By so much the file may be longer than its records: what each worker was granted, and up to a mebibyte of zeros.
AHEAD = WORKERS * 5 * MIB + MIB
# A connection has at most 4,096 messages.
MESSAGES = 4000
TYPE = 'application/offset+octet-stream'


def free_port():
    with socket.create_server(('127.0.0.1', 0)) as free:
        return free.getsockname()[1]


class Server:
    """A server with a journal, and numbers that can be asked for."""

    def __init__(self, program, folder):
        self.numbers = free_port()
        self.process = subprocess.Popen(
            [program, 'serve', '--journal', folder, '--forever', '--workers', str(WORKERS), '--at-once', '64',
             '--metrics', str(self.numbers), '--blocks', str(BLOCKS), '--block-size', str(BLOCK), '--max-size', str(MOST),
             f'acme:{BLOCKS}'], stdout=subprocess.PIPE, stderr=subprocess.PIPE, text=True)
        line = self.process.stdout.readline()
        if not line.startswith('listening'):
            sys.exit(f'the server does not start: {self.process.wait()} {self.process.stderr.read()}')
        self.port = int(line.rsplit(':', 1)[1])

    def connect(self):
        return http.client.HTTPConnection('127.0.0.1', self.port, timeout=60)

    def asked(self):
        """The numbers without labels, by their names."""
        link = http.client.HTTPConnection('127.0.0.1', self.numbers, timeout=60)
        link.request('GET', '/metrics')
        text = link.getresponse().read().decode()
        link.close()
        return {name: float(value) for name, value in re.findall(r'^cadrusmo_(\w+) (\S+)$', text, re.M)}

    def kill(self):
        """Kills it, and gives what it has told of its journal."""
        self.process.kill()
        self.process.wait()
        return self.process.stderr.read().splitlines()


class Client(threading.Thread):
    """Creates uploads and deletes them; `held` are those that were not deleted, by path, with their bytes so far."""

    def __init__(self, server, seed, end):
        super().__init__()
        self.server, self.random, self.end = server, random.Random(seed), end
        self.link, self.asked = server.connect(), 0
        self.held, self.made, self.sent, self.fault = {}, 0, 0, None

    def run(self):
        try:
            while time.time() < self.end:
                self.upload()
                while len(self.held) > self.random.randrange(1, 5):
                    self.delete(self.random.choice(list(self.held)))
        except (OSError, http.client.HTTPException, AssertionError) as fault:
            self.fault = repr(fault)

    def ask(self, wanted, method, path, fields=None, body=b''):
        if self.asked == MESSAGES:
            self.link.close()
            self.link, self.asked = self.server.connect(), 0
        self.asked += 1
        reply = ask(self.link, method, path, fields, body)
        if reply[0] not in wanted:
            raise AssertionError(f'{method} {path}: {reply[0]} in place of one of {wanted}')
        return reply

    def upload(self):
        data = self.random.randbytes(self.random.choice([1, 1000, 64 << 10, MIB, MOST]))
        _, fields, _ = self.ask([201], 'POST', '/files/acme', {'Upload-Length': str(len(data))})
        path = fields['Location']
        self.held[path] = b''
        self.made += 1
        for start in range(0, len(data), PART):
            part = data[start:start + PART]
            # There may be no block for it: then the upload stays as it is.
            fields = {'Upload-Offset': str(start), 'Content-Type': TYPE}
            status, _, _ = self.ask([204, 413, 507], 'PATCH', path, fields, part)
            if status != 204:
                return
            self.held[path] += part
            self.sent += len(part)

    def delete(self, path):
        self.ask([204], 'DELETE', path)
        del self.held[path]


def ask(link, method, path, fields=None, body=b''):
    link.request(method, path, body, {'Tus-Resumable': '1.0.0', **(fields or {})})
    reply = link.getresponse()
    return reply.status, reply.headers, reply.read()


def size_of(path):
    """How many bytes a file has; 0 where there is none."""
    try:
        return os.path.getsize(path)
    except FileNotFoundError:
        return 0


class Sizes:
    """What the files of a journal were like, by the numbers that were asked for and by what stands in its folder."""

    def __init__(self, folder):
        self.names = [os.path.join(folder, name) for name in ('journal', 'journal.spare')]
        self.live = self.records = self.file = self.spare = self.last = self.shrunk = 0
        self.beyond, self.recent = -1 << 60, []

    def note(self, numbers):
        now = time.time()
        self.recent = [each for each in self.recent if each[0] > now - 2] + [(now, (BLOCKS - numbers['blocks_free']) * BLOCK)]
        live = max(held for _, held in self.recent)
        records, (file, spare) = numbers['journal_bytes'], map(size_of, self.names)
        self.spare = max(self.spare, spare)
        self.shrunk += records < self.last
        self.last = records
        self.live, self.records = max(self.live, live), max(self.records, records)
        self.file = max(self.file, file)
        self.beyond = max(self.beyond, file - 3 * live - 64 * MIB - AHEAD)


def compare(server, held):
    """Ends where the server lacks one of these uploads, or has other bytes of it."""
    link = server.connect()
    for path, data in held.items():
        _, fields, _ = ask(link, 'HEAD', path)
        if fields['Upload-Offset'] != str(len(data)):
            sys.exit(f'{path} has {fields["Upload-Offset"]} bytes in place of {len(data)}')
        if fields['Upload-Length'] == str(len(data)) and ask(link, 'GET', path)[2] != data:
            sys.exit(f'{path} has other bytes than were sent')


def measure(program, folder, seconds):
    server, sizes = Server(program, folder), Sizes(folder)
    end = time.time() + seconds
    clients = [Client(server, seed, end) for seed in range(CLIENTS)]
    for client in clients:
        client.start()
    while any(client.is_alive() for client in clients):
        sizes.note(server.asked())
        time.sleep(0.05)
    told = server.kill()
    for client in clients:
        if client.fault:
            sys.exit(f'a client failed: {client.fault}; the server told {told}')
    held = {path: data for client in clients for path, data in client.held.items()}
    server = Server(program, folder)
    compare(server, held)
    server.kill()
    made, sent = sum(client.made for client in clients), sum(client.sent for client in clients)
    print(f'{made} uploads with {sent // MIB} MiB in {seconds} s, at most {sizes.live / MIB:.0f} MiB held at once')
    print(f'the records had at most {sizes.records / MIB:.0f} MiB, the file {sizes.file / MIB:.0f} MiB, and the one '
          f'beside it {sizes.spare / MIB:.0f} MiB; '
          f'it was made smaller {sizes.shrunk} times, and given up {sum("smaller" in line for line in told)} times')
    print(f'to three times the bytes that were held, 64 MiB and the room ahead it lacked {-sizes.beyond / MIB:.0f} MiB or more')
    print(f'after a kill all {len(held)} uploads had the bytes that were sent')
    if sizes.beyond > 0:
        sys.exit('the file was larger than it may be')


def main(program, folder, seconds=60):
    place = os.path.join(folder, 'churn')
    shutil.rmtree(place, ignore_errors=True)
    try:
        measure(os.path.abspath(program), place, int(seconds))
    finally:
        shutil.rmtree(place, ignore_errors=True)


if __name__ == '__main__':
    main(*sys.argv[1:])
