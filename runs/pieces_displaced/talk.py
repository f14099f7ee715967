import os
import sys
sys.path.insert(0, os.path.dirname(os.path.dirname(os.path.abspath(__file__))))
import time
from clients import Server, creation, everything, field, patch, reply, request, status

BODY = b'x' * 200000

server = Server(sys.argv[1:])
client, other = server.connect(), server.connect()
client.sendall(creation('acme', len(BODY)))
print(status(client))
client.sendall(patch('/files/acme/1', 0, BODY[:100000], length=len(BODY)))
time.sleep(0.5)
other.sendall(request('HEAD', '/files/acme/1'))
print(field(reply(other)[0], 'Upload-Offset'), [everything(client)])
other.sendall(patch('/files/acme/1', 100000, BODY[100000:]))
print(status(other))
other.close()
for _ in range(2):
    server.connect().close()
server.end()
