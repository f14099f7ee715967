import os
import re
import subprocess
import sys
sys.path.insert(0, os.path.dirname(os.path.dirname(os.path.abspath(__file__))))
import tempfile
import time
from clients import Server, asked_at, creation, everything, free_port, patch, request, status


def framed(file):
    """How many bytes of a journal's file are frames: each is as long as its first number says, and 16 bytes more."""
    at = 0
    while length := int.from_bytes(file[at:at + 8], 'big'):
        at += 16 + length
    return at


def tell(port, path, seconds):
    """Prints the numbers of the journal at a path, of which no more than so many seconds were spent."""
    text = asked_at(port, 'GET /metrics').split('\r\n\r\n', 1)[1]
    told = {line.split()[0]: line.split()[1] for line in text.splitlines() if line.startswith('cadrusmo_journal')}
    with open(path, 'rb') as journal:
        file = journal.read()
    print('syncs', told['cadrusmo_journal_syncs_total'], 'records', told['cadrusmo_journal_records_total'])
    spent = float(told['cadrusmo_journal_sync_seconds_total'])
    print('seconds:', 'none' if spent == 0 else 0 < spent < seconds)
    print('bytes', told['cadrusmo_journal_bytes'], 'as in the file:', int(told['cadrusmo_journal_bytes']) == framed(file))
    print('file:', int(told['cadrusmo_journal_file_bytes']) == len(file), 'families:', len(told))


def looked(*words):
    """What `journal` says of the journal that the server has."""
    return subprocess.run([sys.argv[1], 'journal', *words], capture_output=True, text=True, check=True).stdout


with tempfile.TemporaryDirectory() as folder:
    words = [*sys.argv[1:], '--journal', os.path.join(folder, 'uploads'), '--metrics']
    path = os.path.join(folder, 'uploads', 'journal')
    port = free_port()
    start = time.monotonic()
    server = Server([*words, str(port)], stderr=subprocess.PIPE)
    print(server.journal(), end='')
    tell(port, path, 0)
    with server.connect() as client:
        for change in [creation('acme', 10), patch('/files/acme/1', 0, b'hello'), patch('/files/acme/1', 5, b'world')]:
            client.sendall(change)
            print(status(client))
        tell(port, path, time.monotonic() - start)
        uploads = os.path.dirname(path)
        print(re.sub(r'file: \d+', 'file: N', looked('check', uploads)), end='')
        print(looked('export', uploads, 'acme/1'))
        client.sendall(request('HEAD', '/files/acme/1'))
        print(status(client, has_body=False))
    tell(port, path, time.monotonic() - start)
    for _ in range(2):
        server.asked('OPTIONS', '*')
    print(server.process.stdout.read(), end='')
    print('status', server.process.wait())
    port = free_port()
    server = Server([*words, str(port)], stderr=subprocess.PIPE)
    print(server.journal(), end='')
    tell(port, path, 0)
    for _ in range(3):
        server.asked('OPTIONS', '*')
    server.end()
