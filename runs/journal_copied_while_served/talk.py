import os
import subprocess
import sys
sys.path.insert(0, os.path.dirname(os.path.dirname(os.path.abspath(__file__))))
import tempfile
import threading
import time
from clients import Server, creation, field, patch, reply, request

LENGTH = 8_000_000
PIECE = 5_000
CONTENT = bytes(n % 251 for n in range(LENGTH))


class Sender(threading.Thread):
    """Sends an upload piece by piece, until it is asked to stop, and knows the last offset that it was told."""

    def __init__(self, server, number):
        super().__init__()
        self.client = server.connect()
        self.path = f'/files/acme/{number}'
        self.told = 0
        self.is_over = False
        self.client.sendall(creation('acme', LENGTH))
        reply(self.client)

    def run(self):
        while not self.is_over and self.told < LENGTH:
            self.client.sendall(patch(self.path, self.told, CONTENT[self.told:self.told + PIECE]))
            self.told = int(field(reply(self.client)[0], 'Upload-Offset'))


def has_all(words, path, told):
    """Whether a server with these words has at least so many bytes of an upload, and those that were sent."""
    server = Server(words, stderr=subprocess.PIPE)
    with server.connect() as client:
        client.sendall(request('HEAD', path))
        offset = int(field(reply(client, has_body=False)[0], 'Upload-Offset'))
        client.sendall(patch(path, offset, CONTENT[offset:]) if offset < LENGTH else request('HEAD', path))
        reply(client, has_body=offset < LENGTH)
        client.sendall(request('GET', path, 'Connection: close'))
        content = reply(client)[1]
    server.process.wait()
    return offset >= told and content == CONTENT


with tempfile.TemporaryDirectory() as folder:
    words = sys.argv[1:]
    uploads = os.path.join(folder, 'uploads')
    server = Server([*words, '--forever', '--journal', uploads], stderr=subprocess.PIPE)
    copies = []
    for number in range(1, 4):
        sender = Sender(server, number)
        sender.start()
        while sender.told < 400_000:
            time.sleep(0.001)
        told = sender.told
        copy = os.path.join(folder, f'copy{number}')
        os.mkdir(copy)
        # As long as the file has a second name, nothing else is written to it.
        second = os.path.join(uploads, 'copying')
        os.link(os.path.join(uploads, 'journal'), second)
        subprocess.run(['cp', second, os.path.join(copy, 'journal')], check=True)
        subprocess.run(['cp', os.path.join(uploads, 'settings'), copy], check=True)
        os.remove(second)
        sender.is_over = True
        sender.join()
        copies.append((copy, sender.path, told))
    server.process.kill()
    server.process.wait()
    for copy, path, told in copies:
        print(has_all([*words, '--connections', '1', '--journal', copy], path, told))
