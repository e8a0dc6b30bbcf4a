"""Times a listening gsd beside nginx with a file of the same bytes. Both run on this machine, as does the load (wrk)."""
import http.client
import os
import pathlib
import re
import subprocess
import sys
import tempfile
import time

SECONDS = 8
WORKERS = 64
LINES = 100_000

CONFIGURATION = """
worker_processes {processors};
pid {room}/nginx.pid;
error_log {room}/error.log;
events {{ worker_connections 1024; }}
http {{
  access_log off;
  sendfile on;
  tcp_nodelay on;
  keepalive_requests 100000000;
  client_body_temp_path {room}/body;
  proxy_temp_path {room}/proxy;
  fastcgi_temp_path {room}/fastcgi;
  uwsgi_temp_path {room}/uwsgi;
  scgi_temp_path {room}/scgi;
  default_type application/n-triples;
  server {{ listen 127.0.0.1:{port}; root {room}/files; }}
}}
"""

PUT = """
wrk.method = "PUT"
wrk.headers["Content-Type"] = "text/turtle"
wrk.body = '<http://e/s> <http://e/p> "1" .'
"""


def document(lines):
    """Lines of 74 bytes, in the order in which a store gives them."""
    made = (f'<http://example.org/subject/{n:08d}> <http://example.org/p> "{n:08d}" .' for n in range(lines))
    return "".join(line + "\n" for line in made)


def put(port, path, text):
    connection = http.client.HTTPConnection("127.0.0.1", port)
    connection.request("PUT", path, text.encode(), {"Content-Type": "application/n-triples"})
    status = connection.getresponse().status
    if status not in (201, 204):
        sys.exit(f"PUT {path}: {status}")


def body(port, path):
    connection = http.client.HTTPConnection("127.0.0.1", port)
    connection.request("GET", path)
    return connection.getresponse().read()


def load(port, path, connections, script=None):
    """Requests a second and bytes a second of wrk; a failed reply ends the run."""
    threads = min(2, connections)
    words = ["wrk", f"-t{threads}", f"-c{connections}", f"-d{SECONDS}s"]
    words += ["-s", script] if script else []
    said = subprocess.run([*words, f"http://127.0.0.1:{port}{path}"], capture_output=True, text=True, check=True).stdout
    if "Non-2xx" in said or "Socket errors" in said:
        sys.exit(f"wrk on {path}:\n{said}")
    requests = float(re.search(r"Requests/sec:\s*([\d.]+)", said)[1])
    number, unit = re.search(r"Transfer/sec:\s*([\d.]+)([KMG]?)B", said).groups()
    return requests, float(number) * 1024 ** " KMG".index(unit or " ")


def both(title, ports, path, connections, is_large):
    figures = {name: load(port, path, connections) for name, port in ports.items()}
    at = 1 if is_large else 0
    values = {name: it[at] / (1e6 if is_large else 1) for name, it in figures.items()}
    unit = "MB/s" if is_large else "a second"
    shown = ", ".join(f"{name} {value:,.0f} {unit}" for name, value in values.items())
    print(f"{title}: {shown}, ratio {values['gsd'] / values['nginx']:.2f}", flush=True)


def main(program):
    with tempfile.TemporaryDirectory() as room:
        os.chmod(room, 0o755)
        graphs = pathlib.Path(room, "files", "graphs")
        graphs.mkdir(parents=True)
        small, large = '<http://e/s> <http://e/p> "1" .\n', document(LINES)
        (graphs / "small").write_text(small)
        (graphs / "large").write_text(large)
        server = subprocess.Popen(
            [program, "--listen", "127.0.0.1:0", "--workers", str(WORKERS), "--piece", "4096"],
            stdout=subprocess.PIPE,
            text=True,
        )
        nginx_port = 18_080
        configuration = CONFIGURATION.format(room=room, port=nginx_port, processors=os.cpu_count())
        pathlib.Path(room, "nginx.conf").write_text(configuration)
        script = pathlib.Path(room, "put.lua")
        script.write_text(PUT)
        subprocess.run(["nginx", "-c", f"{room}/nginx.conf"], check=True)
        try:
            port = int(server.stdout.readline().rsplit(":", 1)[1])
            time.sleep(0.3)
            ports = {"gsd": port, "nginx": nginx_port}
            put(port, "/graphs/small", small)
            put(port, "/graphs/large", large)
            for name in ("small", "large"):
                if body(port, f"/graphs/{name}") != body(nginx_port, f"/graphs/{name}"):
                    sys.exit(f"the bytes of {name} differ")
            both("GET of one line, 64 connections", ports, "/graphs/small", 64, False)
            both(f"GET of {LINES:,} lines, 1 connection", ports, "/graphs/large", 1, True)
            both(f"GET of {LINES:,} lines, 4 connections", ports, "/graphs/large", 4, True)
            requests, _ = load(port, "/graphs/written", 8, str(script))
            print(f"PUT of one triple, 8 connections: gsd {requests:,.0f} a second", flush=True)
        finally:
            server.terminate()
            subprocess.run(["nginx", "-c", f"{room}/nginx.conf", "-s", "stop"], check=False)


main(sys.argv[1])
