"""A server that a run starts, and its clients: what the scripts of the runs with many clients share."""
import os
import re
import socket
import subprocess
import sys
import time

PATCH = ['Content-Type: application/offset+octet-stream']


class Server:
    """The server, which has told where it listens."""

    def __init__(self, words, **others):
        self.process = subprocess.Popen(words, stdout=subprocess.PIPE, text=True, **others)
        self.port = int(self.process.stdout.readline().rsplit(':', 1)[1])

    def connect(self):
        return socket.create_connection(('127.0.0.1', self.port), timeout=30)

    def asked(self, method, path, *fields, body=b''):
        """What a client is told that has a connection for this request alone."""
        with self.connect() as client:
            client.sendall(request(method, path, *fields, 'Connection: close', body=body))
            return everything(client)

    def is_closed(self):
        """Whether nobody listens at its port, now or within some seconds."""
        for _ in range(100):
            try:
                self.connect().close()
            except ConnectionRefusedError:
                return True
            time.sleep(0.05)
        return False

    def journal(self):
        """What it told of its journal on standard error, which has to be a pipe, without how long it took to read."""
        return re.sub(r'\d+ ms', 'N ms', self.process.stderr.readline())

    def end(self):
        """Prints what the server prints at its end, and ends with its status."""
        print(self.process.stdout.read(), end='')
        sys.exit(self.process.wait())


def names_in(folder):
    """The names in the folder of a journal, but for its mark, which is put each second and is away for a moment."""
    return sorted(name for name in os.listdir(folder) if not name.startswith('journal.mark'))


def frames_in(journal):
    """Where the frames in the bytes of a journal's file begin, and where the last one ends."""
    begins, at = [], 0
    while length := int.from_bytes(journal[at:at + 8], 'big'):
        begins.append(at)
        at += 16 + length
    return begins, at


def free_port():
    """A port of this machine that nobody listens at."""
    with socket.create_server(('127.0.0.1', 0)) as free:
        return free.getsockname()[1]


def other_address():
    """An address of this machine that is not on its loopback; none where it has none."""
    with socket.socket(socket.AF_INET, socket.SOCK_DGRAM) as probe:
        try:
            probe.connect(('192.0.2.1', 9))
        except OSError:
            return None
        return probe.getsockname()[0]


def asked_at(port, question, *fields, address='127.0.0.1', source=None):
    """What is answered at the port for numbers, of this address, to who asks from that one."""
    with socket.create_connection((address, port), timeout=30, source_address=source and (source, 0)) as client:
        client.sendall('\r\n'.join([f'{question} HTTP/1.1', 'Host: x', *fields, '', '']).encode())
        return everything(client)


def request(method, path, *fields, body=b'', length=None):
    """A request, which tells the length of its body, or this one."""
    lines = [f'{method} {path} HTTP/1.1', 'Host: x', 'Tus-Resumable: 1.0.0', *fields]
    if body or length:
        lines.append(f'Content-Length: {length or len(body)}')
    return '\r\n'.join(lines).encode() + b'\r\n\r\n' + body


def creation(tenant, length):
    return request('POST', f'/files/{tenant}', f'Upload-Length: {length}')


def patch(path, offset, body, length=None):
    return request('PATCH', path, *PATCH, f'Upload-Offset: {offset}', body=body, length=length)


def reply(client, has_body=True):
    """The next reply, its head as text and its body."""
    head = b''
    while not head.endswith(b'\r\n\r\n'):
        byte = client.recv(1)
        if not byte:
            return head.decode(), b''
        head += byte
    length = re.search(rb'Content-Length: (\d+)', head)
    body = b''
    while has_body and length and len(body) < int(length.group(1)):
        body += client.recv(int(length.group(1)) - len(body))
    return head.decode(), body


def answered(client, data, count, start):
    """Sends these bytes so often, and gives how many replies come that begin so, until as many came or the server closes."""
    client.sendall(data * count)
    replies = 0
    rest = b''
    while replies < count and (part := client.recv(65536)):
        rest += part
        replies += rest.count(start)
        rest = rest[-len(start) + 1:]
    return replies


def status(client, has_body=True):
    return reply(client, has_body)[0].split(' ')[1]


def field(head, name):
    return re.search(rf'{name}: (\S+)', head).group(1)


def everything(client):
    """All that still comes until the server closes."""
    parts = []
    while part := client.recv(65536):
        parts.append(part)
    return b''.join(parts).decode()
