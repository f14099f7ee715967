import os
import sys
sys.path.insert(0, os.path.dirname(os.path.dirname(os.path.abspath(__file__))))
import signal
import time
from clients import Server, request, status

for more in ([], ['--at-once', '4']):
    server = Server([*sys.argv[1:], *more])
    with server.connect() as client:
        message = request('HEAD', '/files/acme/1')
        client.sendall(message[:20])
        for _ in range(2):
            time.sleep(0.3)
            server.process.send_signal(signal.SIGSTOP)
            time.sleep(0.3)
            server.process.send_signal(signal.SIGCONT)
        client.sendall(message[20:])
        print(status(client))
    print(server.process.stdout.read(), end='')
    server.process.wait()
sys.exit(server.process.returncode)
