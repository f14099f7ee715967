import os
import sys
sys.path.insert(0, os.path.dirname(os.path.dirname(os.path.abspath(__file__))))
import re
import tempfile
from clients import Server, creation, everything, patch, request

# A request whose target would be a line of the log, and a HEAD that is refused by a reply without a body.
HOSTILE = b'GET /files/acme/1\x0a"Thu, 01 Jan 1970 00:00:00 GMT" 1.2.3.4:5 acme GET / HTTP/1.1\r\nHost: x\r\n\r\n'
NO_HOST = b'HEAD /files/acme/1 HTTP/1.1\r\n\r\n'

# Of an upload that never was, of a tenant that is none, of no upload, and of a tenant.
REFUSED = ['/files/acme/9', '/files/nobody/1', '/nowhere', '/files/acme']

with tempfile.TemporaryDirectory() as folder:
    path = os.path.join(folder, 'log')
    server = Server([*sys.argv[1:], '--log', path])
    with server.connect() as client:
        client.sendall(creation('acme', 5) + request('HEAD', '/files/acme/1') + patch('/files/acme/1', 0, b'hello')
                       + patch('/files/acme/1', 9, b'x') + request('GET', '/files/acme/1', 'Connection: close'))
        everything(client)
    for refused in [HOSTILE, NO_HOST]:
        with server.connect() as client:
            client.sendall(refused)
            everything(client)
    with server.connect() as client:
        client.sendall(patch('/files/acme/1', 5, b'he', length=5))
        everything(client)
    with server.connect() as client:
        client.sendall(b''.join(request('HEAD', path) for path in REFUSED) + request('DELETE', '/files/acme/1')
                       + request('HEAD', '/files/acme/1') + b'HEAD /files/acme/1 HTTP/1.1\r\nHost: x\r\n\r\n'
                       + request('OPTIONS', '*', 'Connection: close'))
        everything(client)
    balance = server.process.stdout.read()
    for line in open(path):
        print(re.sub(r' \d+ (sent|unsent)$', r' MICROS \1', re.sub(r'127.0.0.1:\d+', 'PEER', line)), end='')
print(balance, end='')
sys.exit(server.process.wait())
