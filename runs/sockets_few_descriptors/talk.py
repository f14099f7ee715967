import os
import sys
sys.path.insert(0, os.path.dirname(os.path.dirname(os.path.abspath(__file__))))
from clients import Server, request, status

server = Server(sys.argv[1:])
clients = [server.connect() for _ in range(40)]
for client in clients:
    client.sendall(request('HEAD', '/files/acme/1'))
for client in clients:
    assert status(client) == '404'
    client.close()
print('40 were answered')
server.end()
