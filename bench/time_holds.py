"""Times a listening gsd where the lock is held shortly or long: time_holds.py PROGRAM [SECONDS]. Small requests on many connections, large reads alone
and beside writers, loads alone and four at once, first PUTs of new names, and resident bytes a triple; on two documents,
beside nginx and serdi where they can do the same. All on one machine."""
import contextlib
import http.client
import os
import pathlib
import re
import subprocess
import sys
import tempfile
import time
from concurrent.futures import ThreadPoolExecutor

import make_natural
import time_load

TICKS = os.sysconf("SC_CLK_TCK")
TRIPLES = 500_000
LARGE = 100_000
MOST_BYTES = 30_000_000
LINES = "application/n-triples"
NGINX_PORT = 18_081

CONFIGURATION = """
worker_processes {processors};
pid {room}/nginx.pid;
error_log {room}/error.log;
events {{ worker_connections 1024; }}
http {{
  access_log off;
  sendfile on;
  tcp_nodelay on;
  keepalive_requests 100000000;
  client_body_temp_path {room}/body;
  proxy_temp_path {room}/proxy;
  fastcgi_temp_path {room}/fastcgi;
  uwsgi_temp_path {room}/uwsgi;
  scgi_temp_path {room}/scgi;
  default_type application/n-triples;
  server {{ listen 127.0.0.1:{port}; root {room}/files; }}
}}
"""


def ten(number):
    """Ten triples."""
    return "".join(f'<http://e/s{number}-{k // 3}> <http://e/p{k}> "{k} of {number}" .\n' for k in range(10))


def sorted_lines(count):
    """The nearly sorted document of bench/load.sh."""
    return (time_load.line(number) for number in range(count))


DOCUMENTS = {"nearly sorted": sorted_lines, "in natural order": make_natural.lines}


def parts(lines, most=MOST_BYTES):
    """The text of lines, in bodies of so many bytes at most."""
    bodies, size = [[]], 0
    for line in lines:
        if size + len(line) > most:
            bodies.append([])
            size = 0
        bodies[-1].append(line)
        size += len(line)
    return ["".join(body).encode() for body in bodies]


class Server:
    """A listening gsd."""

    def __init__(self, program, *words):
        command = [program, "--listen", "127.0.0.1:0", "--workers", "64", *words]
        self.process = subprocess.Popen(command, stdout=subprocess.PIPE, text=True)
        line = self.process.stdout.readline()
        if ":" not in line:
            self.process.kill()
            sys.exit(f"{program} does not listen")
        self.port = int(line.rsplit(":", 1)[1])

    def __enter__(self):
        return self

    def __exit__(self, *_):
        self.process.kill()
        self.process.wait()

    def put(self, path, bodies):
        time_load.load(self.port, path, LINES, bodies)


def processor(pids):
    """The processor seconds of processes."""
    found = 0
    for pid in pids:
        words = pathlib.Path(f"/proc/{pid}/stat").read_text().rsplit(")", 1)[1].split()
        found += int(words[11]) + int(words[12])
    return found / TICKS


class Load:
    """A run of wrk that goes on."""

    def __init__(self, port, path, connections, seconds, script=None):
        words = ["wrk", "--latency", f"-t{min(2, connections)}", f"-c{connections}", f"-d{seconds}s"]
        words += ["-s", script] if script else []
        self.run = subprocess.Popen([*words, f"http://127.0.0.1:{port}{path}"], stdout=subprocess.PIPE, text=True)

    def end(self):
        """Requests and megabytes a second, and the milliseconds within which 99 of 100 are answered."""
        said = self.run.communicate()[0]
        if self.run.returncode or "Non-2xx" in said or "Socket errors" in said:
            sys.exit(f"wrk:\n{said}")
        number, unit = re.search(r"Transfer/sec:\s*([\d.]+)([KMG]?)B", said).groups()
        late, scale = re.search(r"99%\s*([\d.]+)(us|ms|s|m)", said).groups()
        requests = float(re.search(r"Requests/sec:\s*([\d.]+)", said)[1])
        return requests, float(number) * 1024 ** " KMG".index(unit or " ") / 1e6, float(late) * {"us": 1e-3, "ms": 1, "s": 1e3, "m": 6e4}[scale]


@contextlib.contextmanager
def nginx(room, files):
    """Debian's nginx over these files; gives its processes."""
    os.chmod(room, 0o755)
    for name, text in files.items():
        file = pathlib.Path(room, "files", "graphs", name)
        file.parent.mkdir(parents=True, exist_ok=True)
        file.write_bytes(text)
    configuration = pathlib.Path(room, "nginx.conf")
    configuration.write_text(CONFIGURATION.format(room=room, port=NGINX_PORT, processors=os.cpu_count()))
    subprocess.run(["nginx", "-c", configuration], check=True)
    master = None
    try:
        time.sleep(0.3)
        master = int(pathlib.Path(room, "nginx.pid").read_text())
        children = pathlib.Path(f"/proc/{master}/task/{master}/children").read_text().split()
        yield [master, *map(int, children)]
    finally:
        subprocess.run(["nginx", "-c", configuration, "-s", "stop"], stderr=subprocess.DEVNULL, check=False)
        # (the next one takes the same port)
        while master and pathlib.Path(f"/proc/{master}").exists():
            time.sleep(0.05)


def small_requests(program, seconds, room):
    """GETs of ten lines on 64 connections, and PUTs of ten triples on eight."""
    text = ten(0).encode()
    script = pathlib.Path(room, "put.lua")
    body = ten(1).replace('"', '\\"').replace("\n", "\\n")
    script.write_text(f'wrk.method = "PUT"\nwrk.headers["Content-Type"] = "{LINES}"\nwrk.body = "{body}"\n')
    with Server(program, "--piece", "4096") as server, nginx(room, {"ten": text}) as peers:
        server.put("/graphs/ten", [text])
        for name, port, pids in (("gsd", server.port, [server.process.pid]), ("nginx", NGINX_PORT, peers)):
            before = processor(pids)
            requests, _, late = Load(port, "/graphs/ten", 64, seconds).end()
            each = (processor(pids) - before) / (requests * seconds) * 1e6
            print(f"GET of ten lines, 64 connections, {name}: {requests:,.0f} a second, {each:.1f} µs of a processor, 99 % within {late:.2f} ms", flush=True)
        requests, _, late = Load(server.port, "/graphs/put", 8, seconds, str(script)).end()
        print(f"PUT of ten triples, 8 connections: {requests:,.0f} a second, 99 % within {late:.2f} ms", flush=True)
    return str(script)


def large_reads(program, seconds, room, what, bodies, script):
    """GETs of a large graph on one connection and on four, and on four beside two writers."""
    with Server(program, "--piece", "256") as server, nginx(room, {"large": b"".join(bodies)}):
        server.put("/graphs/large", bodies)
        for connections in (1, 4):
            speed = Load(server.port, "/graphs/large", connections, seconds).end()[1]
            peer = Load(NGINX_PORT, "/graphs/large", connections, seconds).end()[1]
            over = "one connection" if connections == 1 else f"{connections} connections"
            print(f"GET of {LARGE:,} lines {what}, {over}: {speed:,.0f} MB/s, nginx {peer:,.0f} (ratio {speed / peer:.2f})", flush=True)
        alone = Load(server.port, "/graphs/put", 2, seconds, script).end()[0]
        readers = Load(server.port, "/graphs/large", 4, seconds)
        writers = Load(server.port, "/graphs/put", 2, seconds, script)
        try:
            beside, written = readers.end()[1], writers.end()[0]
        finally:
            writers.run.kill()
        print(f"  four readers beside two writers: {beside:,.0f} MB/s ({beside / speed:.2f} of alone); the writers {written / alone:.2f} of alone", flush=True)


def loads(program, what, bodies, room):
    """A load of the document, beside serdi; four such loads at once; and what the server keeps of it."""
    files = [pathlib.Path(room, f"{place}.nt") for place in range(len(bodies))]
    for file, body in zip(files, bodies):
        file.write_bytes(body)
    with Server(program) as server:
        before = time_load.resident(server.process)
        begun = time.perf_counter()
        server.put("/graphs/0", bodies)
        taken = time.perf_counter() - begun
        kept = (time_load.resident(server.process) - before) / TRIPLES
    peer = time_load.best("ntriples", files)
    with Server(program) as server, ThreadPoolExecutor(4) as pool:
        begun = time.perf_counter()
        four = [pool.submit(server.put, f"/graphs/{number}", bodies) for number in range(4)]
        for one in four:
            one.result()
        all_four = time.perf_counter() - begun
    speeds = f"{TRIPLES / taken:,.0f} triples a second, serdi {TRIPLES / peer:,.0f} (ratio {peer / taken:.2f})"
    print(f"load of {TRIPLES:,} triples {what}: {speeds}; four at once {4 * taken / all_four:.2f} times one; {kept:.1f} bytes resident a triple", flush=True)


def new_names(program):
    """First PUTs of new names, among ten thousand and among fifty thousand."""
    body = b"<http://e/s> <http://e/p> <http://e/o> .\n"
    with Server(program) as server:
        connection = http.client.HTTPConnection("127.0.0.1", server.port)
        taken, names = {}, 0
        for many in (10_000, 50_000):
            while names < many + 1_000:
                if names == many:
                    begun = time.perf_counter()
                time_load.request(connection, "PUT", f"/graphs/name{names}", LINES, body)
                names += 1
            taken[many] = (time.perf_counter() - begun) * 1e3
        print(f"first PUT of a new name: {taken[10_000]:.0f} µs among 10,000, {taken[50_000]:.0f} among 50,000 (ratio {taken[50_000] / taken[10_000]:.2f})", flush=True)


def main():
    program, seconds = sys.argv[1], int(sys.argv[2]) if len(sys.argv) > 2 else 8
    with tempfile.TemporaryDirectory() as room:
        script = small_requests(program, seconds, room)
        for what, lines in DOCUMENTS.items():
            large_reads(program, seconds, room, what, parts(lines(LARGE)), script)
        for what, lines in DOCUMENTS.items():
            loads(program, what, parts(lines(TRIPLES)), room)
        new_names(program)


if __name__ == "__main__":
    main()
