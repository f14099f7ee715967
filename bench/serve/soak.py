#!/usr/bin/env python3
"""Random clients of one server: they create, send, join, ask, cut off and delete, and count what is charged.

    bench/serve/soak.py PROGRAM [SECONDS [PAUSE [WORD..]]]

starts the program with 16 workers, and with these words, and keeps 500 connections busy for so long (600 seconds unless
said), each with uploads of its own. Each client waits for PAUSE seconds (0.02 unless said) after each step. Every reply is
compared with what the client expects, and the bytes of each upload that is downloaded with those that were sent. At the
end the server's last line has to say what the clients counted. With `--journal FOLDER` among the words, `journal check`
then has to find the uploads that the clients have.
"""
import contextlib
import http.client
import random
import socket
import subprocess
import sys
import threading
import time

BLOCK = 4096
CONNECTIONS = 1024
WORKERS = 16
CLIENTS = 500
TENANTS = [f'tenant-{number}' for number in range(16)]
UPLOADS = 2
TYPE = 'application/offset+octet-stream'


def blocks(n):
    return -(-n // BLOCK)


class Client(threading.Thread):
    """One client: its uploads, and what they cost. An origin is the bytes of one upload, which a join shares."""

    def __init__(self, number, port, end, pause):
        super().__init__()
        self.pause = pause
        self.random = random.Random(number)
        self.tenant = TENANTS[number % len(TENANTS)]
        self.port, self.end = port, end
        self.uploads = {}
        self.holders = {}
        self.charged = self.released = self.requests = self.opened = 0
        self.connection = None
        self.error = None

    def connect(self):
        if self.connection:
            self.connection.close()
        self.connection = http.client.HTTPConnection('127.0.0.1', self.port, timeout=60)
        self.opened += 1
        self.sent = 0

    def ask(self, method, path, fields, body=None):
        if self.sent == 4000:
            self.connect()
        self.sent += 1
        self.requests += 1
        self.connection.request(method, path, body, {'Tus-Resumable': '1.0.0', **fields})
        reply = self.connection.getresponse()
        return reply.status, reply.headers, reply.read()

    def expect(self, wanted, got, what):
        if wanted != got:
            raise AssertionError(f'{what}: {got} in place of {wanted}')

    def create(self):
        partial = self.random.random() < 0.5
        length = self.random.choice([0, 1, BLOCK - 1, BLOCK, self.random.randrange(1, 200000)])
        fields = {'Upload-Length': str(length)}
        if partial:
            fields['Upload-Concat'] = 'partial'
        status, headers, _ = self.ask('POST', f'/files/{self.tenant}', fields)
        self.expect(201, status, 'creation')
        path = headers['Location']
        self.uploads[path] = {'length': length, 'bytes': b'', 'partial': partial, 'origins': [path]}
        self.holders[path] = [1, 0]

    def grow(self, path, body):
        before = blocks(len(self.uploads[path]['bytes']))
        self.uploads[path]['bytes'] += body
        added = blocks(len(self.uploads[path]['bytes'])) - before
        self.charged += added
        self.holders[path][1] += added

    def send(self, path):
        upload = self.uploads[path]
        offset = len(upload['bytes'])
        left = upload['length'] - offset
        body = self.random.randbytes(min(left, self.random.choice([left, self.random.randrange(0, left + 1)])))
        if body and self.random.random() < 0.005:
            return self.cut(path, offset, body)
        status, headers, _ = self.ask('PATCH', path, {'Upload-Offset': str(offset), 'Content-Type': TYPE}, body)
        self.expect(204, status, 'PATCH')
        self.grow(path, body)
        self.expect(str(len(upload['bytes'])), headers['Upload-Offset'], 'offset')

    def cut(self, path, offset, body):
        """Is cut off inside a body, and learns by HEAD how many bytes came."""
        head = (f'PATCH {path} HTTP/1.1\r\nHost: x\r\nTus-Resumable: 1.0.0\r\nUpload-Offset: {offset}\r\n'
                f'Content-Type: {TYPE}\r\nContent-Length: {len(body)}\r\n\r\n').encode()
        self.connection.sock.sendall(head + body[:len(body) // 2])
        self.connect()
        wanted = str(offset + len(body) // 2)
        for _ in range(100):
            _, headers, _ = self.ask('HEAD', path, {})
            if headers['Upload-Offset'] == wanted:
                break
            time.sleep(0.05)
        self.expect(wanted, headers['Upload-Offset'], 'offset after a cut')
        self.grow(path, body[:len(body) // 2])

    def concatenate(self):
        parts = [p for p, u in self.uploads.items() if u['partial'] and len(u['bytes']) == u['length']]
        if not parts:
            return
        parts = self.random.choices(parts, k=self.random.randrange(1, 5))
        status, headers, _ = self.ask('POST', f'/files/{self.tenant}', {'Upload-Concat': 'final;' + ' '.join(parts)})
        self.expect(201, status, 'join')
        joined = b''.join(self.uploads[p]['bytes'] for p in parts)
        self.uploads[headers['Location']] = {
            'length': len(joined), 'bytes': joined, 'partial': False, 'origins': parts}
        for part in parts:
            self.holders[part][0] += 1

    def look(self, path):
        upload = self.uploads[path]
        status, headers, _ = self.ask('HEAD', path, {})
        self.expect((200, str(len(upload['bytes']))), (status, headers['Upload-Offset']), 'HEAD')
        if len(upload['bytes']) == upload['length']:
            status, _, content = self.ask('GET', path, {})
            self.expect((200, True), (status, content == upload['bytes']), 'GET')

    def delete(self, path):
        status, _, _ = self.ask('DELETE', path, {})
        self.expect(204, status, 'DELETE')
        for origin in self.uploads.pop(path)['origins']:
            self.holders[origin][0] -= 1
            if self.holders[origin][0] == 0:
                self.released += self.holders.pop(origin)[1]
        self.expect(410, self.ask('HEAD', path, {})[0], 'HEAD of what is gone')

    def step(self):
        paths = list(self.uploads)
        open_paths = [p for p in paths if len(self.uploads[p]['bytes']) < self.uploads[p]['length']]
        what = self.random.random()
        if len(paths) >= UPLOADS and what < 0.4 or (paths and what < 0.15):
            self.delete(self.random.choice(paths))
        elif open_paths and what < 0.6:
            self.send(self.random.choice(open_paths))
        elif paths and what < 0.75:
            self.look(self.random.choice(paths))
        elif len(paths) < UPLOADS and what < 0.85:
            self.concatenate()
        elif len(paths) < UPLOADS:
            self.create()

    def run(self):
        try:
            self.connect()
            while time.monotonic() < self.end:
                self.step()
                time.sleep(self.pause)
            self.connection.close()
        except Exception as error:
            self.error = error
            self.connection.close()


def is_kept(program, folder, clients):
    """Whether a journal has the uploads of the clients, by their number and their bytes."""
    told = subprocess.run([program, 'journal', 'check', folder], stdout=subprocess.PIPE, text=True).stdout.strip()
    uploads = [upload for client in clients for upload in client.uploads.values()]
    print(f'the journal: {told}\nthe clients: {len(uploads)} uploads, {sum(len(upload["bytes"]) for upload in uploads)} bytes')
    return f' {len(uploads)} uploads, {sum(len(upload["bytes"]) for upload in uploads)} bytes;' in told


def main():
    program, seconds, pause, *words = [*sys.argv[1:], *('600', '0.02')[len(sys.argv) - 2:]]
    seconds, pause = int(seconds), float(pause)
    server = subprocess.Popen(
        [program, 'serve', '--workers', str(WORKERS), '--connections', str(CONNECTIONS), '--at-once', str(CLIENTS), '--idle', '0', '--blocks', '131072',
         *words, *(f'{tenant}:8192' for tenant in TENANTS)], stdout=subprocess.PIPE, text=True)
    port = int(server.stdout.readline().rsplit(':', 1)[1])
    clients = [Client(number, port, time.monotonic() + seconds, pause) for number in range(CLIENTS)]
    for client in clients:
        client.start()
    for client in clients:
        client.join()
    # The workers end after all of their connections; of those that are closed at once some are lost before they are accepted.
    while server.poll() is None:
        with contextlib.suppress(OSError):
            socket.create_connection(('127.0.0.1', port)).close()
    told = server.stdout.readline().strip()
    charged, released = sum(c.charged for c in clients), sum(c.released for c in clients)
    counted = f'charged {charged} released {released} held {charged - released}'
    errors = [str(client.error) for client in clients if client.error]
    print(f'{sum(c.requests for c in clients)} requests on {sum(c.opened for c in clients)} connections')
    print(f'the server:  {told}\nthe clients: {counted}')
    print('\n'.join(errors) if errors else 'no reply was another than expected')
    status = server.wait()
    kept = '--journal' not in words or is_kept(program, words[words.index('--journal') + 1], clients)
    sys.exit(status != 0 or told != counted or bool(errors) or not kept)


main()
