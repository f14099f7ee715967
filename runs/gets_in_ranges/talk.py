import os
import sys
sys.path.insert(0, os.path.dirname(os.path.dirname(os.path.abspath(__file__))))
from clients import Server, patch, reply, request

BODY = bytes(place * place // 251 % 256 for place in range(700001))


def told(client, message, wanted=b''):
    """Prints the status of the reply to a message, and whether its body is this one."""
    client.sendall(message)
    head, body = reply(client)
    print(head.splitlines()[0], len(body), body == wanted)


server = Server(sys.argv[1:])
with server.connect() as client:
    told(client, request('POST', '/files/acme', f'Upload-Length: {len(BODY)}', 'Upload-Concat: partial'))
    told(client, patch('/files/acme/1', 0, BODY))
    told(client, request('POST', '/files/acme', 'Upload-Concat: final;/files/acme/1 /files/acme/1'))
    told(client, request('GET', '/files/acme/1'), BODY)
    told(client, request('GET', '/files/acme/2'), BODY + BODY)
    told(client, request('DELETE', '/files/acme/1'))
    told(client, request('GET', '/files/acme/1'), b'gone\n')
    told(client, request('GET', '/files/acme/2'), BODY + BODY)
server.end()
