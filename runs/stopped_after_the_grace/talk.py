import os
import sys
sys.path.insert(0, os.path.dirname(os.path.dirname(os.path.abspath(__file__))))
import re
import tempfile
from clients import Server, asked_at, creation, everything, free_port, patch, reply

port = free_port()
with tempfile.TemporaryDirectory() as folder:
    path = os.path.join(folder, 'log')
    server = Server([*sys.argv[1:], '--metrics', str(port), '--log', path])
    slow = server.connect()
    slow.sendall(creation('acme', 10))
    print(reply(slow)[0].splitlines()[0])
    slow.sendall(patch('/files/acme/1', 0, b'hello', length=10))
    head = server.connect()
    head.sendall(b'HEAD /files/acme/1 HTT')
    while 'cadrusmo_connections_open 2' not in asked_at(port, 'GET /metrics'):
        pass
    print('POST /stop', asked_at(port, 'POST /stop').splitlines()[0])
    print('cut off:', [everything(slow), everything(head)])
    balance = server.process.stdout.read()
    for line in open(path):
        print(re.sub(r' \d+ (sent|unsent)$', r' MICROS \1', re.sub(r'127.0.0.1:\d+', 'PEER', line)), end='')
print(balance, end='')
sys.exit(server.process.wait())
