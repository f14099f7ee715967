import os
import sys
sys.path.insert(0, os.path.dirname(os.path.dirname(os.path.abspath(__file__))))
from clients import Server, request, status

server = Server(sys.argv[1:])
for count in (500, 833, 857, 1100):
    with server.connect() as client:
        client.sendall(request('HEAD', '/files/acme/1') * count)
        print(count, 'requests:', {status(client) for _ in range(count)})
server.end()
