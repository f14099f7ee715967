import os
import sys
sys.path.insert(0, os.path.dirname(os.path.dirname(os.path.abspath(__file__))))
import subprocess
import tempfile
import time
from clients import PATCH, Server, creation, field, patch, reply, request, status

BODY = bytes(place * 7 % 251 for place in range(200000))

with tempfile.TemporaryDirectory() as folder:
    journal = os.path.join(folder, 'uploads')
    words = [journal if word == 'JOURNAL' else word for word in sys.argv[1:]]
    server = Server(words, stderr=subprocess.DEVNULL)
    clients = [server.connect(), server.connect()]
    clients[0].sendall(creation('acme', len(BODY)))
    print(status(clients[0]))
    clients[0].sendall(patch('/files/acme/1', 0, BODY[:65536], length=len(BODY)))
    clients[1].sendall(request('POST', '/files/acme', f'Upload-Length: {len(BODY)}', *PATCH, body=BODY[:65536], length=len(BODY)))
    time.sleep(0.5)
    for client in clients:
        client.sendall(BODY[65536:100000])
    time.sleep(0.5)
    server.process.kill()
    server.process.wait()
    server = Server(words, stderr=subprocess.DEVNULL)
    for path in '/files/acme/1', '/files/acme/2':
        with server.connect() as client:
            client.sendall(request('HEAD', path))
            offset = int(field(reply(client)[0], 'Upload-Offset'))
            client.sendall(patch(path, offset, BODY[offset:]) + request('GET', path))
            print(path, offset, status(client), reply(client)[1] == BODY)
    server.process.kill()
