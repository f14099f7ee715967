import os
import sys
sys.path.insert(0, os.path.dirname(os.path.dirname(os.path.abspath(__file__))))
import time
from clients import Server, creation, everything, field, patch, status

PARTS = (30000, 60000, 20000)
server = Server(sys.argv[1:])
clients = [server.connect() for _ in PARTS]
for number, (client, part) in enumerate(zip(clients, PARTS), 1):
    client.sendall(creation('acme', 100000))
    print(status(client))
    client.sendall(patch(f'/files/acme/{number}', 0, bytes(part), length=100000))
    time.sleep(0.5)
print(repr(everything(clients[1])))
print(field(server.asked('HEAD', '/files/acme/2'), 'Upload-Offset'))
for place in (0, 2):
    clients[place].sendall(bytes(100000 - PARTS[place]))
    print(status(clients[place]))
for client in clients:
    client.close()
for _ in range(2):
    server.connect().close()
server.end()
