import os
import sys
sys.path.insert(0, os.path.dirname(os.path.dirname(os.path.abspath(__file__))))
import time
from clients import Server, creation, everything, field, patch, reply, request, status

BODY = b'x' * 196608

server = Server(sys.argv[1:])
clients = [server.connect(), server.connect()]
for client in clients:
    client.sendall(creation('acme', len(BODY)))
    print(status(client))
for number, client in enumerate(clients, 1):
    client.sendall(patch(f'/files/acme/{number}', 0, BODY[:65536], length=len(BODY)))
time.sleep(0.5)
clients[0].sendall(BODY[65536:])
print(status(clients[0]))
clients[1].sendall(BODY[65536:150000])
print(everything(clients[1]), end='')
with server.connect() as client:
    client.sendall(request('HEAD', '/files/acme/2'))
    print(field(reply(client)[0], 'Upload-Offset'))
for client in clients:
    client.close()
server.end()
