import os
import sys
sys.path.insert(0, os.path.dirname(os.path.dirname(os.path.abspath(__file__))))
import time
from clients import PATCH, Server, everything, request

BODY = b'x' * 196608


def created(body, length=len(BODY)):
    return request('POST', '/files/acme', f'Upload-Length: {length}', *PATCH, body=body, length=length)


def begun(client):
    """Sends the first piece of a creation, in two parts, and waits until it is stored."""
    client.sendall(created(BODY[:30000]))
    time.sleep(0.25)
    client.sendall(BODY[30000:65536])
    time.sleep(0.5)


def ended(client):
    """Sends the rest, and prints the reply, behind which the server closes."""
    client.sendall(BODY[65536:150000])
    print(everything(client) or 'cut\n', end='')
    client.close()


server = Server(sys.argv[1:])
client = server.connect()
begun(client)
print(server.asked('DELETE', '/files/acme/1').splitlines()[0])
ended(client)
clients = [server.connect(), server.connect()]
for client in clients:
    begun(client)
clients[0].sendall(BODY[65536:])
clients[0].shutdown(1)
print(everything(clients[0]).splitlines()[0])
clients[0].close()
ended(clients[1])
print(server.asked('HEAD', '/files/acme/3').splitlines()[3])
print(server.asked('DELETE', '/files/acme/3').splitlines()[0])
with server.connect() as client:
    client.sendall(created(BODY[:65536], length=262144))
    print(everything(client).splitlines()[0])
print(server.asked('HEAD', '/files/acme/4').splitlines()[0])
server.end()
