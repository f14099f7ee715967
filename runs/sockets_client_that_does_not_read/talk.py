import os
import sys
sys.path.insert(0, os.path.dirname(os.path.dirname(os.path.abspath(__file__))))
from clients import Server, creation, patch, reply, request, status

GETS, SIZE = 40, 1048576
body = bytes(range(256)) * (SIZE // 256)
server = Server(sys.argv[1:])
silent = server.connect()
silent.sendall(creation('acme', SIZE) + patch('/files/acme/1', 0, body))
print(status(silent), status(silent))
silent.sendall(request('GET', '/files/acme/1') * GETS)
for _ in range(2):
    print(server.asked('HEAD', '/files/acme/1').split('\r\n')[0])
print(sum(reply(silent)[1] == body for _ in range(GETS)), 'downloads were as they were sent')
silent.close()
server.end()
