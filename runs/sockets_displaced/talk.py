import os
import sys
sys.path.insert(0, os.path.dirname(os.path.dirname(os.path.abspath(__file__))))
import time
from clients import Server, creation, everything, patch, reply, request


def half_read(path, offset, part, length):
    """A client whose PATCH lies half read."""
    client = server.connect()
    client.sendall(patch(path, offset, part, length=length))
    time.sleep(0.5)
    return client


def told(*messages):
    """Sends these, and prints the heads of their replies."""
    client.sendall(b''.join(messages))
    for _ in messages:
        print(reply(client)[0], end='')


server = Server(sys.argv[1:])
client = server.connect()
told(creation('acme', 20), creation('acme', 4))
ghosts = [half_read('/files/acme/1', 0, b'hello', 20)]
told(request('HEAD', '/files/acme/1'))
ghosts.append(half_read('/files/acme/1', 5, b' worl', 15))
ghosts.append(half_read('/files/acme/1', 10, b'd, ', 10))
told(patch('/files/acme/1', 13, b'again!!'))
client.sendall(request('GET', '/files/acme/1'))
print(reply(client)[1])
ghosts.append(half_read('/files/acme/2', 0, b'x', 4))
told(request('DELETE', '/files/acme/2'), request('HEAD', '/files/acme/2'))
print([everything(ghost) for ghost in ghosts])
for connection in [client, *ghosts]:
    connection.close()
for _ in range(3):
    server.connect().close()
server.end()
