import os
import sys
sys.path.insert(0, os.path.dirname(os.path.dirname(os.path.abspath(__file__))))
import time
from clients import Server, creation, patch, reply, request

server = Server(sys.argv[1:])
first = server.connect()
first.sendall(creation('acme', 10))
print(reply(first)[0], end='')
first.sendall(patch('/files/acme/1', 0, b'hello', length=10))
first.close()
time.sleep(0.5)
with server.connect() as second:
    second.sendall(request('HEAD', '/files/acme/1') + patch('/files/acme/1', 5, b'world') + request('GET', '/files/acme/1'))
    print(reply(second)[0] + reply(second)[0], end='')
    print(reply(second))
for _ in range(2):
    server.connect().close()
server.end()
