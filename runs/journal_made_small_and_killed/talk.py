import os
import subprocess
import sys
sys.path.insert(0, os.path.dirname(os.path.dirname(os.path.abspath(__file__))))
import tempfile
import time
from clients import Server, creation, names_in, patch, reply, request, status

MIB = 1 << 20
# So many bytes of text, each line of which has its number.
KEPT = b''.join(b'%015d\n' % number for number in range(MIB // 16))
PASSING = bytes(16 * MIB)
LARGE = 56 * MIB


def pass_by(client, numbers):
    """Creates uploads with these numbers, fills and deletes them."""
    for number in numbers:
        path = f'/files/acme/{number}'
        client.sendall(creation('acme', len(PASSING)) + patch(path, 0, PASSING))
        print(status(client), status(client))
        client.sendall(request('DELETE', path))
        print(status(client))


def is_small(journal):
    """Whether the journal is not large any more, now or within half a minute."""
    for _ in range(300):
        if os.path.getsize(journal) < LARGE:
            return True
        time.sleep(0.1)
    return False


def becomes(journal, inode, is_it=True):
    """Whether the journal's is the file of this number, or is not, now or within half a minute."""
    for _ in range(300):
        if (os.stat(journal).st_ino == inode) == is_it:
            return True
        time.sleep(0.1)
    return False


def names_after(folder):
    """The names in the folder, once none is of a journal that is being put in its place any more, or after half a minute."""
    for _ in range(300):
        names = names_in(folder)
        if not any(name.startswith('journal.new') for name in names):
            break
        time.sleep(0.1)
    return names


with tempfile.TemporaryDirectory() as parent:
    folder = os.path.join(parent, 'uploads')
    journal, copying = os.path.join(folder, 'journal'), os.path.join(folder, 'copying')
    words = [*sys.argv[1:], '--journal', folder]
    server = Server([*words, '--forever'], stderr=subprocess.PIPE)
    print(server.journal(), end='')
    os.chmod(journal, 0o640)
    with server.connect() as client:
        client.sendall(creation('acme', MIB) + patch('/files/acme/1', 0, KEPT))
        print(status(client), status(client))
        client.sendall(creation('acme', 2 * MIB) + patch('/files/acme/2', 0, KEPT[:1000]))
        print(status(client), status(client))
        first = os.stat(journal).st_ino
        pass_by(client, (3, 4, 5, 6))
        print('large:', os.path.getsize(journal) > LARGE)
        print('small:', is_small(journal), oct(os.stat(journal).st_mode & 0o777))
        print(*names_after(folder))
        # The file of before is used again, with what it held behind the zeros. The one that is the journal's now has a second
        # name, so it is not.
        second = os.stat(journal).st_ino
        os.chmod(journal, 0o600)
        os.link(journal, copying)
        pass_by(client, (7, 8, 9, 10))
        print('in turn:', second != first, becomes(journal, first), oct(os.stat(journal).st_mode & 0o777))
        print(*names_after(folder))
        print('no longer than may be:', os.path.getsize(journal) <= 72 * MIB)
        os.remove(copying)
        client.sendall(patch('/files/acme/2', 1000, KEPT[1000:1500]))
        print(status(client))
        checked = subprocess.run([sys.argv[1], 'journal', 'check', folder], stdout=subprocess.PIPE, text=True, check=True)
        print(*checked.stdout.split()[:6], *checked.stdout.split()[-2:])
        pass_by(client, (11, 12, 13, 14))
        print('anew:', becomes(journal, first, is_it=False))
        print(*names_after(folder))
    server.process.kill()
    server.process.wait()
    words[words.index('--blocks') + 1] = '4096'
    server = Server([*words, '--block-size', '8192', '--connections', '4'], stderr=subprocess.PIPE)
    print(server.journal(), end='')
    print(*names_in(folder))
    print(server.asked('HEAD', '/files/acme/2'), end='')
    print(server.asked('HEAD', '/files/acme/6'), end='')
    print(server.asked('GET', '/files/acme/1').endswith('\r\n\r\n' + KEPT.decode()))
    with server.connect() as client:
        client.sendall(patch('/files/acme/2', 1500, KEPT[1500:2000]) + creation('acme', 1))
        print(reply(client)[0], reply(client)[0], sep='', end='')
    server.process.wait()
    print(server.process.stdout.read(), end='')
    print(*names_in(folder))
    exported = subprocess.run([sys.argv[1], 'journal', 'export', folder, 'acme/2'], stdout=subprocess.PIPE, check=True)
    print('exported:', exported.stdout == KEPT[:2000])
