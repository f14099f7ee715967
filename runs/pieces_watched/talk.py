import os
import sys
sys.path.insert(0, os.path.dirname(os.path.dirname(os.path.abspath(__file__))))
import re
import tempfile
import time
from clients import PATCH, Server, asked_at, creation, everything, free_port, patch, request, status

BODY = b'x' * 150000

with tempfile.TemporaryDirectory() as folder:
    path, port = os.path.join(folder, 'log'), free_port()
    server = Server([*sys.argv[1:], '--log', path, '--metrics', str(port)])
    with server.connect() as client:
        client.sendall(creation('acme', len(BODY)))
        print(status(client))
        client.sendall(patch('/files/acme/1', 0, BODY))
        print(status(client))
        client.sendall(creation('acme', len(BODY)))
        print(status(client))
        client.sendall(patch('/files/acme/2', 0, BODY[:100000], length=len(BODY)))
        client.shutdown(1)
        everything(client)
    with server.connect() as client:
        client.sendall(request('POST', '/files/acme', f'Upload-Length: {len(BODY)}', *PATCH, body=BODY))
        print(status(client))
    time.sleep(0.5)
    for line in asked_at(port, 'GET /metrics').splitlines():
        if re.match('cadrusmo_(replies_total|request_seconds_count|requests_total)', line):
            print(line)
    for _ in range(2):
        server.connect().close()
    balance = server.process.stdout.read()
    for line in open(path):
        print(re.sub(r' \d+ (sent|unsent)$', r' MICROS \1', re.sub(r'127.0.0.1:\d+', 'PEER', line)), end='')
print(balance, end='')
sys.exit(server.process.wait())
