import os
import sys
sys.path.insert(0, os.path.dirname(os.path.dirname(os.path.abspath(__file__))))
import re
import time
from clients import Server, asked_at, creation, everything, free_port, patch, request

try:
    from prometheus_client.parser import text_string_to_metric_families
except ImportError:
    text_string_to_metric_families = None

LINE = re.compile(r'([a-z_]+)(?:\{((?:[a-z]+="(?:[^"\\\n]|\\.)*",?)+)\})? (\d+(?:\.\d+)?)$')


def samples_in(text):
    """Each sample of the text, which is lines of Prometheus' format alone."""
    samples = []
    for line in text.splitlines():
        if not line.startswith(('# HELP cadrusmo_', '# TYPE cadrusmo_', '# HELP process_', '# TYPE process_')):
            name, labels, value = LINE.match(line).groups()
            samples.append((name, dict(re.findall(r'([a-z]+)="([^"]*)"', labels or '')), float(value)))
    return samples


def is_steady(name):
    """Whether a sample is the same in each run."""
    return not re.search('seconds|bytes', name)


port = free_port()
server = Server([*sys.argv[1:], '--metrics', str(port)])
with server.connect() as client:
    client.sendall(creation('acme', 5) + patch('/files/acme/1', 0, b'hello') + request('HEAD', '/files/acme/1')
                   + creation('beta', 9000) + creation('beta', 1) + patch('/files/beta/1', 0, b'x' * 5000)
                   + request('OPTIONS', '*', 'Connection: close'))
    everything(client)
with server.connect() as client:
    client.sendall(b'nonsense\r\n\r\n')
    everything(client)
time.sleep(0.5)
for question in ['GET /health', 'GET /nothing']:
    print(question, asked_at(port, question).splitlines()[0])
head, text = asked_at(port, 'GET /metrics').split('\r\n\r\n', 1)
print('GET /metrics', head.splitlines()[0])
samples = samples_in(text)
for name, labels, value in samples:
    if is_steady(name):
        print(name, labels, value)
buckets = [value for name, _, value in samples if name.endswith('_bucket')]
print('buckets rise:', buckets == sorted(buckets), 'requests:', buckets[-1])
if text_string_to_metric_families:
    families = text_string_to_metric_families(text)
    read = [(sample.name, sample.labels, sample.value) for family in families for sample in family.samples]
    assert sorted(map(str, read)) == sorted(map(str, samples)), read
with server.connect() as client:
    client.sendall(request('OPTIONS', '*', 'Connection: close'))
    everything(client)
server.end()
