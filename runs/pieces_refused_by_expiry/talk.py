import os
import sys
sys.path.insert(0, os.path.dirname(os.path.dirname(os.path.abspath(__file__))))
import time
from clients import Server, creation, everything, patch, status

BODY = b'x' * 200000

server = Server(sys.argv[1:])
client = server.connect()
client.sendall(creation('acme', len(BODY)))
print(status(client))
client.sendall(patch('/files/acme/1', 0, BODY[:65536], length=len(BODY)))
time.sleep(4)
client.sendall(BODY[65536:])
head, body = everything(client).split('\r\n\r\n')
print(head.split('\r\n')[0], 'Connection: close' in head, [body])
client.close()
server.connect().close()
server.end()
