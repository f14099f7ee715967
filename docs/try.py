#!/usr/bin/env python3
"""Types the blocks of TRY.md in an empty folder, and prints each answer that differs from the page.

    docs/try.py [PROGRAM]

With no PROGRAM it takes the server that ./tus-server built. It builds none: `~/cadrusmo/tus-server` is the program here. Sections
that need a program which is not there, and the line that needs a browser, are passed over, and named. Where a port of the page
is taken, the next free one stands for it. Dates, times, process ids and the version of nginx are not compared. It ends what it
started, and removes its files. The status is 1 where an answer differed or the page took too long, and else 0.
"""
import contextlib
import functools
import os
import re
import shutil
import signal
import socket
import subprocess
import sys
import tempfile
import time

TOP = os.path.dirname(os.path.dirname(os.path.abspath(__file__)))
# What a section needs: these go on with what the one before them made.
NEEDS = {
    "With a client of tus": ["curl", "tusclient"],
    "Through nginx, with TLS": ["curl", "tusclient", "nginx", "openssl"],
    "In a browser": ["curl", "tusclient", "nginx", "openssl"],
    "Who may reach a tenant": ["curl", "tusclient", "nginx", "openssl"],
}
PORTS = [8080, 8443, 8000, 9000]
# The seconds that the page may take, and those to end what it started.
PAGE_SECONDS, END_SECONDS = 100, 5


@functools.cache
def is_there(need):
    """Whether a program, or the client of tus for Debian's Python, is there."""
    if need == "tusclient":
        words = ["/usr/bin/python3", "-c", "from tusclient import client"]
        return os.path.exists(words[0]) and subprocess.run(words, capture_output=True).returncode == 0
    return shutil.which(need) is not None


def free(port):
    """The port, or the next one that is free."""
    while True:
        try:
            socket.create_server(("127.0.0.1", port)).close()
            return port
        except OSError:
            port += 1


def commands(text):
    """Gives each command of the page with its section and the lines that it is to print."""
    section, found, open_ended = "", [], None
    for line in text.split("\n"):
        if line.startswith("#"):
            section, open_ended = line.lstrip("# "), None
        elif not line.startswith("    ") and line:
            open_ended = None
        elif line.startswith("    $ ") and open_ended is None:
            found.append([section, line[6:], []])
            open_ended = "END" if "<<'END'" in line else "\\" if line.endswith("\\") else None
        elif open_ended:
            found[-1][1] += "\n" + line[4:]
            if line[4:] == "END" or open_ended == "\\" and not line.endswith("\\"):
                open_ended = None
        elif found:
            found[-1][2].append(line[4:])
    return found


def plain(lines):
    """The lines without what changes from one run to the next, and without empty ones at the end."""
    text = "\n".join(line.rstrip("\r") for line in lines)
    text = re.sub(r"\w{3}, \d\d \w{3} \d{4} [\d:]{8} GMT", "DATE", text)
    text = re.sub(r"\d{4}/\d\d/\d\d [\d:]{8} \[notice\] \d+#\d+", "NOTICE", text)
    text = re.sub(r"read in \d+ ms", "read in N ms", text)
    text = re.sub(r"nginx/[\d.]+", "nginx/N", text)
    return text.rstrip("\n").split("\n")


class Terminal:
    """A shell to type in. It has a session of its own, so that all that runs in it can be ended."""

    typed = "nothing"

    def __init__(self, folder, home):
        how = {"stdin": subprocess.PIPE, "stdout": subprocess.PIPE, "stderr": subprocess.STDOUT, "text": True}
        names = {"HOME": home, "PATH": os.environ.get("PATH", os.defpath)}
        self.bash = subprocess.Popen(["bash"], cwd=folder, env=names, start_new_session=True, **how)

    def type(self, command):
        """The lines that a command prints; of a server, those up to the one that tells where it listens."""
        Terminal.typed = command
        self.bash.stdin.write(f"{command}\n{'wait' if is_serve(command) else ''}\nprintf '\\n@@@\\n'\n")
        self.bash.stdin.flush()
        lines = []
        for line in self.bash.stdout:
            if line == "@@@\n":
                return lines if lines[-1] else lines[:-1]
            lines.append(line[:-1])
            if is_serve(command) and line.startswith("listening "):
                break
        return lines

    def end(self):
        """Ends what runs in it. Its output has an end once that is so."""
        if self.bash.returncode is None:
            os.killpg(self.bash.pid, signal.SIGKILL)
            self.bash.stdout.read()
            self.bash.wait()


def is_serve(command):
    return re.search("tus-server (run|serve) ", command) is not None


class Nginx:
    """nginx of this folder, which is in no session of a terminal."""

    def __init__(self, folder):
        self.folder = folder

    def runs(self):
        return os.path.exists(f"{self.folder}/nginx.pid")

    def wait(self):
        """Waits until it has ended, which is a moment after it was told to."""
        while self.runs():
            time.sleep(0.05)

    def end(self):
        if self.runs():
            subprocess.run(["nginx", "-p", self.folder, "-c", "nginx.conf", "-s", "stop"], capture_output=True)
            self.wait()


def type_page(typed, folder, home, ends):
    """Types the commands, servers in a first terminal and all else in a second, and gives how many answers differ."""
    faults, server = 0, None
    second, nginx = Terminal(folder, home), Nginx(folder)
    ends.callback(second.end)
    ends.callback(nginx.end)

    def start(command):
        nonlocal server
        if server:
            server.end()
        server = Terminal(folder, home)
        ends.callback(server.end)
        return server.type(command)

    for _, command, wanted in typed:
        if is_serve(command):
            served, got = command, start(command)
        else:
            got = second.type(command)
        if plain(got) != plain(wanted):
            faults += 1
            print(f"TRY.md: {command}\n    wanted {plain(wanted)}\n    got    {plain(got)}", flush=True)
        if command.endswith("-s stop"):
            nginx.wait()
        if command.startswith("kill -KILL"):
            start(served)
    return faults


def give_up(number, _):
    raise SystemExit(f"TRY.md: ended by {signal.Signals(number).name} after this was typed:\n{Terminal.typed}")


def main():
    program = os.path.abspath(sys.argv[1] if len(sys.argv) > 1 else f"{TOP}/crates/tus_server/out/tus_server")
    if not os.access(program, os.X_OK):
        raise SystemExit(f"TRY.md: there is no program {program}, which ./tus-server builds")
    for number in (signal.SIGALRM, signal.SIGTERM, signal.SIGHUP):
        signal.signal(number, give_up)
    signal.setitimer(signal.ITIMER_REAL, PAGE_SECONDS)
    # nginx's workers, which are another user where root starts it, get to the folder too.
    os.umask(0o022)
    ports = {str(port): str(free(port)) for port in PORTS}

    def text_of(file):
        with open(f"{TOP}/docs/{file}", encoding="utf-8") as opened:
            text = re.sub(r"\b(" + "|".join(ports) + r")\b", lambda found: ports[found[0]], opened.read())
        # `run` listens at its own port unless told.
        return text if ports["8080"] == "8080" else text.replace("tus-server run ", f"tus-server run --port {ports['8080']} ")

    page = commands(text_of("TRY.md"))
    lacking = {section: [it for it in NEEDS.get(section, ["curl"]) if not is_there(it)] for section, _, _ in page}
    for section, needs in lacking.items():
        if needs:
            print(f"TRY.md: '{section}' is passed over, since there is no {needs[0]}")
    typed = [row for row in page if not lacking[row[0]] and "drive.py" not in row[1]]
    print("TRY.md: drive.py is passed over, since it needs a browser")
    with contextlib.ExitStack() as ends:
        room = ends.enter_context(tempfile.TemporaryDirectory())
        os.chmod(room, 0o755)
        home, folder = f"{room}/home", f"{room}/typed"
        os.makedirs(f"{home}/cadrusmo/docs")
        os.mkdir(folder)
        os.symlink(program, f"{home}/cadrusmo/tus-server")
        os.symlink(f"{TOP}/examples", f"{home}/cadrusmo/examples")
        with open(f"{home}/cadrusmo/docs/nginx.conf", "w", encoding="utf-8") as copy:
            copy.write(text_of("nginx.conf"))
        try:
            faults = type_page(typed, folder, home, ends)
        finally:
            signal.setitimer(signal.ITIMER_REAL, END_SECONDS, END_SECONDS)
    print(f"TRY.md: {len(typed)} commands were typed, {faults} answers differ")
    return 1 if faults else 0


if __name__ == "__main__":
    sys.exit(main())
