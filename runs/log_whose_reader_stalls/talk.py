import os
import sys
sys.path.insert(0, os.path.dirname(os.path.dirname(os.path.abspath(__file__))))
import re
import tempfile
from clients import Server, answered, asked_at, free_port, request

# More lines than the pipe and the program have room for: a line has the whole target, and three bytes for each of its own.
TARGET = '/' + '%' * 1000
BATCHES = 70

with tempfile.TemporaryDirectory() as folder:
    path = os.path.join(folder, 'log')
    os.mkfifo(path)
    reader = os.open(path, os.O_RDONLY | os.O_NONBLOCK)
    port = free_port()
    server = Server([*sys.argv[1:], '--log', path, '--metrics', str(port)])
    replies = 0
    for _ in range(2):
        with server.connect() as client:
            replies += sum(answered(client, request('HEAD', TARGET), 50, b'HTTP/1.1 404 ') for _ in range(BATCHES))
            if replies == 2 * BATCHES * 50:
                numbers = asked_at(port, 'GET /metrics')
                lost = int(re.search(r'^cadrusmo_log_lines_lost_total (\d+)$', numbers, re.M).group(1))
                os.set_blocking(reader, True)
    print(replies, 'requests were answered')
    print('lines were lost:', 0 < lost < replies)
    with open(reader) as log:
        written = sum(line.endswith(' sent\n') and '/' + '%25' * 1000 in line for line in log)
    print('each other line was written:', written + lost == replies)
server.end()
