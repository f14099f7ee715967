import os
import re
import subprocess
import sys
sys.path.insert(0, os.path.dirname(os.path.dirname(os.path.abspath(__file__))))
import tempfile
import time
from clients import Server, creation, frames_in, patch, status

CHANGES = [creation('acme', 8), patch('/files/acme/1', 0, b'\xff\x80hi'), patch('/files/acme/1', 4, b'\x00\x01\x02')]


def is_told(words, journal, place, bit):
    """Whether the journal with this bit of the byte at a place changed is told as damaged, in the frame that has the byte, and
    nothing is written to it."""
    with open(journal, 'r+b') as file:
        before = file.read()
        file.seek(place)
        file.write(bytes([before[place] ^ 1 << bit]))
    changed = open(journal, 'rb').read()
    ended = subprocess.run(words, stdin=subprocess.DEVNULL, capture_output=True, text=True)
    is_same = open(journal, 'rb').read() == changed
    with open(journal, 'r+b') as file:
        file.write(before)
    damage = re.match(r'tus-server: journal: damaged\n.* from byte (\d+) of', ended.stderr)
    begin = max(begin for begin in frames_in(before)[0] if begin <= place)
    return ended.returncode == 5 and is_same and damage and int(damage.group(1)) == begin


# In memory where that can be had, since each of many starts syncs.
with tempfile.TemporaryDirectory(dir='/dev/shm' if os.path.isdir('/dev/shm') else None) as folder:
    program, command, *options = sys.argv[1:]
    uploads = os.path.join(folder, 'uploads')
    journal, mark = os.path.join(uploads, 'journal'), os.path.join(uploads, 'journal.mark')
    serve = [program, command, *options, '--journal', uploads, '--workers', '1']
    server = Server([*serve, '--forever'], stderr=subprocess.PIPE)
    print(server.journal(), end='')
    with server.connect() as client:
        for change in CHANGES:
            client.sendall(change)
            print(status(client))
    marked = 0
    # Within a second the mark has all of this.
    for _ in range(100):
        if os.path.exists(mark):
            marked = int(open(mark).read().split()[1])
            if not open(journal, 'rb').read()[marked:].strip(b'\0'):
                break
        time.sleep(0.1)
    server.process.kill()
    server.process.wait()
    talk = [program, 'talk', '--journal', uploads, '--blocks', '64', 'acme:8']
    told = [bool(is_told(talk, journal, place, place % 8)) for place in range(marked)]
    print(len(told), 'bits changed in turn, one of each byte; told as damage:', sum(told))
    print(*sorted(os.listdir(uploads)))
    print(subprocess.run([program, 'journal', 'check', uploads], capture_output=True, text=True).stdout.split(';')[0])
    # A folder without settings is new, whatever mark is there.
    os.remove(journal)
    os.remove(os.path.join(uploads, 'settings'))
    print(subprocess.run(talk, stdin=subprocess.DEVNULL).returncode, os.path.exists(mark))
