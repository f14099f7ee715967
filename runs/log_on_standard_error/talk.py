import os
import sys
sys.path.insert(0, os.path.dirname(os.path.dirname(os.path.abspath(__file__))))
import re
import subprocess
from clients import Server, everything, request

server = Server(sys.argv[1:], stderr=subprocess.PIPE)
with server.connect() as client:
    client.sendall(request('OPTIONS', '*', 'Connection: close'))
    everything(client)
sys.stderr.write(re.sub(r'127.0.0.1:\d+|\d+ sent', 'NUMBER', server.process.stderr.read()))
server.end()
