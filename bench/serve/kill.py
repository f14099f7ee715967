#!/usr/bin/env python3
"""Kills `serve --journal` at random moments under eight clients, and asks the next one for all that the replies had told.

    bench/serve/kill.py PROGRAM [KILLS [SEED [amid | renewed]]]

With the word `amid` uploads are large, and each kill comes when a smaller journal is being written, or has just taken the old
one's place. With `renewed` each start has another lifetime, so that it puts the journal back first, and three starts before it
are killed while they do.

Each client has a tenant of its own, and one request under way at a time. When the server is killed (SIGKILL) it may have made the
change of that request or not; of all else the next server has to have exactly what was told: ids, offsets, bytes, refusals and
what was deleted. It prints one line of figures, or where it found a fault.
"""
import http.client
import os
import random
import signal
import subprocess
import sys
import tempfile
import threading
import time
from collections import namedtuple

CLIENTS = 8
UPLOADS = 6
TYPE = 'application/offset+octet-stream'
# An upload as the client knows it. The bytes are those that it sent; `parts` says whether it may be joined.
Upload = namedtuple('Upload', 'length is_part bytes')


class Client:
    """What one client was told: its uploads by id, None where one was deleted, and the book after the request under way."""

    def __init__(self, number, seed, is_large):
        self.tenant, self.random, self.is_large = f'tenant-{number}', random.Random(seed * CLIENTS + number), is_large
        self.book, self.after = {}, None
        self.requests = self.compared = self.ahead = 0
        self.fault = None

    def ask(self, method, path, fields, body=None):
        self.connection.request(method, path, body, {'Tus-Resumable': '1.0.0', **fields})
        reply = self.connection.getresponse()
        content = reply.read()
        self.requests += 1
        return reply.status, reply.headers, content

    def path(self, number):
        return f'/files/{self.tenant}/{number}'

    def expect(self, wanted, got, what):
        if wanted != got:
            raise AssertionError(f'{self.tenant}: {what}: {got} in place of {wanted}')

    def change(self, book, wanted, method, path, fields, body=None):
        """A request whose reply has to be this one, after which the book is that."""
        self.after = book
        status, headers, _ = self.ask(method, path, fields, body)
        self.expect(wanted, (status, headers.get('Location') or headers.get('Upload-Offset')), f'{method} {path}')
        self.book, self.after = book, None

    def create(self, parts=()):
        number = len(self.book) + 1
        if parts:
            whole = b''.join(self.book[part].bytes for part in parts)
            made = Upload(len(whole), False, whole)
            fields = {'Upload-Concat': 'final;' + ' '.join(self.path(part) for part in parts)}
        else:
            lengths = [self.random.randrange(1, 340000)] if self.is_large else [1, 4096, self.random.randrange(1, 60000)]
            made = Upload(self.random.choice(lengths), self.random.random() < 0.5, b'')
            fields = {'Upload-Length': str(made.length), **({'Upload-Concat': 'partial'} if made.is_part else {})}
        self.change({**self.book, number: made}, (201, self.path(number)), 'POST', f'/files/{self.tenant}', fields)

    def send(self, number):
        upload = self.book[number]
        offset = len(upload.bytes)
        body = self.random.randbytes(self.random.randint(1, upload.length - offset))
        sent = upload._replace(bytes=upload.bytes + body)
        self.change({**self.book, number: sent}, (204, str(len(sent.bytes))), 'PATCH', self.path(number),
                    {'Upload-Offset': str(offset), 'Content-Type': TYPE}, body)

    def refuse(self, number):
        offset = len(self.book[number].bytes) + 1
        status, _, _ = self.ask('PATCH', self.path(number), {'Upload-Offset': str(offset), 'Content-Type': TYPE}, b'x')
        self.expect(409, status, 'PATCH behind the end')

    def delete(self, number):
        self.change({**self.book, number: None}, (204, None), 'DELETE', self.path(number), {})

    def step(self):
        there = [number for number, upload in self.book.items() if upload]
        unfinished = [number for number in there if len(self.book[number].bytes) < self.book[number].length]
        parts = [number for number in there if self.book[number].is_part and number not in unfinished]
        kind = self.random.random()
        if len(there) >= UPLOADS or (there and kind < 0.1):
            self.delete(self.random.choice(there))
        elif unfinished and kind < 0.6:
            self.send(self.random.choice(unfinished))
        elif unfinished and kind < 0.65:
            self.refuse(self.random.choice(unfinished))
        elif there and kind < 0.75:
            self.look(self.book, self.random.choice(there))
        else:
            self.create(self.random.sample(parts, min(len(parts), 3)) if kind < 0.85 else ())

    def look(self, book, number):
        """Whether the server has this upload as the book has it."""
        upload = book[number]
        status, headers, _ = self.ask('HEAD', self.path(number), {})
        if upload is None:
            return status == 410
        if (status, headers.get('Upload-Offset'), headers.get('Upload-Length')) != (200, str(len(upload.bytes)), str(upload.length)):
            return False
        if len(upload.bytes) < upload.length:
            return True
        status, _, content = self.ask('GET', self.path(number), {})
        self.compared += len(content)
        return status == 200 and content == upload.bytes

    def has(self, book):
        nobody, _, _ = self.ask('HEAD', self.path(len(book) + 1), {})
        return nobody == 404 and all(self.look(book, number) for number in book)

    def compare(self):
        """The server has what was told, or that and the change of the request that was under way."""
        if self.after is not None and self.has(self.after):
            self.ahead += self.after != self.book
            self.book = self.after
        else:
            self.expect(True, self.has(self.book), 'what was told')
        self.after = None

    def run(self, port):
        try:
            self.connection = http.client.HTTPConnection('127.0.0.1', port, timeout=30)
            self.compare()
            while True:
                self.step()
        except (OSError, http.client.HTTPException):
            pass
        except AssertionError as fault:
            self.fault = fault


def is_there(path):
    """Whether there is such a file, now or within a minute."""
    for _ in range(60000):
        if os.path.exists(path):
            return True
        time.sleep(0.001)
    return False


def killed(command, clients, seconds, awaited=None, while_stopped=None):
    """Serves these clients for so long, once there is this file, where one is named, and kills the server; gives how long its
    start took. What is to be done while the server is stopped, and nobody is told anything, is done before."""
    start = time.monotonic()
    server = subprocess.Popen(command, stdout=subprocess.PIPE, stderr=subprocess.PIPE, text=True)
    line = server.stdout.readline()
    started = time.monotonic() - start
    if not line.startswith('listening'):
        sys.exit(f'the server does not start: {server.wait()} {server.stderr.read()}')
    threads = [threading.Thread(target=client.run, args=(int(line.rsplit(':', 1)[1]),)) for client in clients]
    for thread in threads:
        thread.start()
    has_come = not awaited or is_there(awaited)
    time.sleep(seconds)
    if while_stopped:
        server.send_signal(signal.SIGSTOP)
        time.sleep(0.1)
        while_stopped()
    server.send_signal(signal.SIGKILL)
    server.wait()
    for thread in threads:
        thread.join()
    if not has_come:
        sys.exit(f'there is no {awaited} after a minute')
    return started


def killed_at_the_start(command, seconds):
    """Starts a server and kills it after so long; tells whether it listened by then."""
    server = subprocess.Popen(command, stdout=subprocess.PIPE, stderr=subprocess.DEVNULL, text=True)
    time.sleep(seconds)
    server.send_signal(signal.SIGKILL)
    return server.communicate()[0].startswith('listening')


def command_of(program, journal, clients, *options):
    return [program, 'serve', '--journal', journal, '--forever', '--workers', '3', '--at-once', '64', '--blocks', '65536', *options,
            *[f'{client.tenant}:4096' for client in clients]]


def main(program, kills=300, seed=1, mode=None):
    amid, renewed = mode == 'amid', mode == 'renewed'
    rng, clients = random.Random(int(seed)), [Client(number, int(seed), amid) for number in range(CLIENTS)]
    with tempfile.TemporaryDirectory() as folder:
        journal = f'{folder}/uploads'
        command = command_of(program, journal, clients)
        new = f'{journal}/journal.new'
        slowest = halves = early = 0
        for kill in range(1, int(kills) + 1):
            for lifetime in range(86400 + 4 * kill, 86404 + 4 * kill) if renewed else ():
                command = command_of(program, journal, clients, '--lifetime', str(lifetime))
                if lifetime % 4 < 3:
                    early += not killed_at_the_start(command, rng.random() * slowest)
            seconds = rng.random() * 0.3 if amid else 0.05 + rng.random() * 0.25
            slowest = max(slowest, killed(command, clients, seconds, awaited=amid and new))
            halves += os.path.exists(new)
            for client in clients:
                if client.fault:
                    sys.exit(f'kill {kill}: {client.fault}')
        requests, compared, ahead = (sum(getattr(client, name) for client in clients) for name in ('requests', 'compared', 'ahead'))
        print(f'{kills} kills, {requests} replies, {ahead} times more was kept than was told; {compared} bytes compared, '
              f'the slowest start {slowest:.2f} s, a file of {os.path.getsize(os.path.join(journal, "journal"))} bytes, {halves} times a smaller one half written, '
              f'{early} starts killed before they listened: all was as told')


if __name__ == '__main__':
    main(*sys.argv[1:])
