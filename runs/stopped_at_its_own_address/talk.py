import os
import sys
sys.path.insert(0, os.path.dirname(os.path.dirname(os.path.abspath(__file__))))
from clients import Server, asked_at, free_port, other_address

address = other_address() or '127.0.0.1'
port = free_port()
server = Server([*sys.argv[1:], '--address', address, '--metrics', str(port)])
for question in ['GET /health', 'POST /stop']:
    print(question, asked_at(port, question, address=address).splitlines()[0])
server.end()
