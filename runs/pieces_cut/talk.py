import os
import sys
sys.path.insert(0, os.path.dirname(os.path.dirname(os.path.abspath(__file__))))
from clients import Server, creation, everything, field, patch, reply, request, status

BODY = bytes(place * 7 % 251 for place in range(200000))
CUTS = [0, 1, 65535, 65536, 65537, 131071, 131072, 131073, 196607, 196608, 196609, 199999, 200000]

server = Server(sys.argv[1:])
for number, cut in enumerate(CUTS, 1):
    path = f'/files/acme/{number}'
    with server.connect() as client:
        client.sendall(creation('acme', len(BODY)))
        assert status(client) == '201'
        client.sendall(patch(path, 0, BODY[:cut], length=len(BODY)))
        client.shutdown(1)
        told = everything(client).split('\r\n')[0]
    with server.connect() as client:
        client.sendall(request('HEAD', path))
        offset = int(field(reply(client)[0], 'Upload-Offset'))
        client.sendall(patch(path, offset, BODY[offset:]) + request('GET', path))
        print(cut, told, offset, status(client), reply(client)[1] == BODY)
server.connect().close()
server.end()
