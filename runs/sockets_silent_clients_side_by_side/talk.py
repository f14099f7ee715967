import os
import sys
sys.path.insert(0, os.path.dirname(os.path.dirname(os.path.abspath(__file__))))
import time
from clients import Server, creation, everything, patch, reply, request, status

server = Server(sys.argv[1:])
nothing, head, body, busy = (server.connect() for _ in range(4))
head.sendall(b'HEAD /files')
body.sendall(creation('acme', 10))
print(status(body))
body.sendall(patch('/files/acme/1', 0, b'hello', length=10))
for byte in request('HEAD', '/files/acme/1')[:40]:
    busy.sendall(bytes([byte]))
    time.sleep(0.1)
print([everything(client) for client in (nothing, head, body)])
busy.sendall(request('HEAD', '/files/acme/1')[40:])
print(reply(busy)[0], end='')
busy.close()
server.connect().close()
server.end()
