import os
import sys
sys.path.insert(0, os.path.dirname(os.path.dirname(os.path.abspath(__file__))))
import base64
import hashlib
from clients import PATCH, Server, creation, everything, field, reply, request, status

BODY = b'x' * 200000
SUM = base64.b64encode(hashlib.sha1(BODY).digest()).decode()


def patch(body):
    return request('PATCH', '/files/acme/1', *PATCH, 'Upload-Offset: 0', f'Upload-Checksum: sha1 {SUM}', body=body, length=len(BODY))


server = Server(sys.argv[1:])
with server.connect() as client:
    client.sendall(creation('acme', len(BODY)))
    print(status(client))
    client.sendall(patch(BODY[:150000]))
    client.shutdown(1)
    print([everything(client)])
with server.connect() as client:
    client.sendall(request('HEAD', '/files/acme/1'))
    print(field(reply(client)[0], 'Upload-Offset'))
    client.sendall(patch(BODY))
    print(status(client))
server.connect().close()
server.end()
