import os
import sys
sys.path.insert(0, os.path.dirname(os.path.dirname(os.path.abspath(__file__))))
import re
import socket
import tempfile
import time
from clients import Server, creation, patch, reply, request

BODY = b'a' * (16 << 20)

with tempfile.TemporaryDirectory() as folder:
    path = os.path.join(folder, 'log')
    server = Server([*sys.argv[1:], '--log', path])
    with server.connect() as client:
        client.setsockopt(socket.SOL_SOCKET, socket.SO_RCVBUF, 4096)
        client.sendall(creation('acme', len(BODY)))
        reply(client)
        client.sendall(patch('/files/acme/1', 0, BODY))
        reply(client)
        while 'PATCH' not in open(path).read():
            time.sleep(0.01)
        client.sendall(request('GET', '/files/acme/1'))
        balance = server.process.stdout.read()
    for line in open(path):
        print(re.sub(r' \d+ (sent|unsent)$', r' MICROS \1', re.sub(r'127.0.0.1:\d+', 'PEER', line)), end='')
print(balance, end='')
sys.exit(server.process.wait())
