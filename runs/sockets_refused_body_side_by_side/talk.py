import os
import sys
sys.path.insert(0, os.path.dirname(os.path.dirname(os.path.abspath(__file__))))
from clients import Server, everything, patch

server = Server(sys.argv[1:])
with server.connect() as client:
    client.sendall(patch('/files/acme/1', 0, bytes(20000000)))
    print(everything(client), end='')
server.end()
