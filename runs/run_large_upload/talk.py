import os
import sys
sys.path.insert(0, os.path.dirname(os.path.dirname(os.path.abspath(__file__))))
import hashlib
import random
from clients import Server, asked_at, creation, field, free_port, patch, reply, request

BODY = random.Random(1).randbytes(20 << 20)

port = free_port()
server = Server([*sys.argv[1:], '--metrics', str(port)])
with server.connect() as client:
    client.sendall(creation('acme', len(BODY)))
    print(reply(client)[0].splitlines()[0])
    client.sendall(patch('/files/acme/1', 0, BODY))
    head = reply(client)[0]
    print(head.splitlines()[0], field(head, 'Upload-Offset'))
    client.sendall(request('GET', '/files/acme/1'))
    head, body = reply(client)
    print(head.splitlines()[0], len(body))
    print('the same bytes:', hashlib.sha256(body).digest() == hashlib.sha256(BODY).digest())
print(asked_at(port, 'POST /stop', 'Content-Length: 0').splitlines()[0])
server.end()
