import os
import sys
sys.path.insert(0, os.path.dirname(os.path.dirname(os.path.abspath(__file__))))
from clients import PATCH, Server, everything, field, patch, reply, request, status

BODY = bytes(place * 7 % 251 for place in range(200000))
CUTS = [0, 1, 65535, 65536, 65537, 131071, 131072, 131073, 196607, 196608, 196609, 199999, 200000]

server = Server(sys.argv[1:])
number = 1
for cut in CUTS:
    path = f'/files/acme/{number}'
    with server.connect() as client:
        client.sendall(request('POST', '/files/acme', f'Upload-Length: {len(BODY)}', *PATCH, body=BODY[:cut], length=len(BODY)))
        client.shutdown(1)
        told = everything(client).split('\r\n')
    with server.connect() as client:
        client.sendall(request('HEAD', path))
        head = reply(client, has_body=False)[0]
        if ' 404 ' in head:
            print(cut, told[0], 'nothing')
            continue
        number += 1
        offset = int(field(head, 'Upload-Offset'))
        client.sendall(patch(path, offset, BODY[offset:]) + request('GET', path))
        print(cut, told[0], offset, status(client), reply(client)[1] == BODY)
    print(*[line for line in told if line.startswith(('Location', 'Upload-Offset', 'Content-Length'))], sep='\n', end='\n' if told[0] else '')
server.connect().close()
server.end()
