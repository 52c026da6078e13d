"""A folder with all that an operator puts up: the program, its setup, the pages and nginx, on ports of loopback that are free."""
import http.client
import json
import os
import resource
import shutil
import socket
import ssl
import subprocess
import time
import urllib.error
import urllib.request

ROOT = os.path.dirname(os.path.dirname(os.path.dirname(os.path.abspath(__file__))))
PATIENCE = 40


def free_port():
    with socket.socket() as it:
        it.bind(("127.0.0.1", 0))
        return it.getsockname()[1]


def wait_for(port):
    end = time.monotonic() + PATIENCE
    while time.monotonic() < end:
        with socket.socket() as it:
            if it.connect_ex(("127.0.0.1", port)) == 0:
                return
        time.sleep(0.05)
    raise AssertionError(f"nothing listens at port {port}")


class Reply:
    """A reply of the host's: its status and the value of its body."""

    def __init__(self, status, text, headers):
        self.status, self.text, self.headers = status, text, headers

    @property
    def body(self):
        return json.loads(self.text)


class Machine:
    """The host and nginx, as deploy/install.sh puts them up, below one folder."""

    def __init__(self, room, program):
        self.room, self.there = room, f"{room}/machine"
        self.port, self.plain_port, self.host_port = free_port(), free_port(), free_port()
        self.origin = f"https://127.0.0.1:{self.port}"
        self.host = self.nginx = None
        self.install(program)
        self.trust = ssl.create_default_context(cafile=f"{self.there}/etc/ssl/whistle/fullchain.pem")
        self.trust.check_hostname = False

    def install(self, program):
        """Runs the installation; its words."""
        words = ["sh", f"{ROOT}/deploy/install.sh", "report.example.org", program]
        return subprocess.run(words, env={**os.environ, "DESTDIR": self.there}, check=True, capture_output=True, text=True).stdout

    @property
    def setup(self):
        return f"{self.there}/etc/whistle/setup.toml"

    @property
    def store(self):
        return f"{self.room}/reports.db"

    def play(self, script):
        """Lets past requests be made: the replies of a script that is played over the store."""
        words = [f"{self.there}/usr/local/bin/whistle", "play", "--store", self.store]
        return subprocess.run(words, input=script, check=True, capture_output=True).stdout.decode()

    def start_host(self):
        """Starts the program, with the signals ignored that Python ignores: a write past a limit of a file's size is then a fault."""
        words = [f"{self.there}/usr/local/bin/whistle", "serve", "--setup", self.setup, "--listen", f"127.0.0.1:{self.host_port}",
                 "--workers", "4", "--store", self.store]
        self.host = subprocess.Popen(words, restore_signals=False)
        wait_for(self.host_port)

    def fill_disk(self):
        """From now on the host can write no further byte to a file."""
        resource.prlimit(self.host.pid, resource.RLIMIT_FSIZE, (1, resource.RLIM_INFINITY))

    def stop_host(self):
        self.host.kill()
        self.host.wait()

    def site(self, to_port, limits):
        """The site of deploy/nginx.conf with this machine's ports and paths. Its limits of requests are lifted, or, where they are asked
        for, a login's allowance grows again so slowly that it does not while the check runs."""
        with open(f"{self.there}/etc/nginx/sites-available/whistle") as it:
            text = it.read()
        for old, new in [
            ("listen 80;", f"listen 127.0.0.1:{self.plain_port};"), ("listen 443 ssl;", f"listen 127.0.0.1:{self.port} ssl;"),
            ("    listen [::]:80;\n", ""), ("    listen [::]:443 ssl;\n", ""),
            ("/etc/ssl/whistle", f"{self.there}/etc/ssl/whistle"), ("/usr/share/whistle/web", f"{self.there}/usr/share/whistle/web"),
            ("127.0.0.1:8080", f"127.0.0.1:{to_port}"),
        ] + ([("rate=30r/m", "rate=1r/m")] if limits else [("rate=20r/s", "rate=9000r/s"), ("rate=30r/m", "rate=9000r/s")]):
            assert old in text, f"deploy/nginx.conf has no {old!r}"
            text = text.replace(old, new)
        return text

    def configure_nginx(self, to_port=None, limits=False):
        """Writes nginx's configuration, the site in a frame like Debian's, and has nginx test it."""
        os.makedirs(f"{self.room}/nginx", exist_ok=True)
        with open(f"{self.room}/nginx/site.conf", "w") as it:
            it.write(self.site(to_port or self.host_port, limits))
        temporary = "".join(f"    {kind}_temp_path {self.room}/nginx/{kind} 1 2;\n" for kind in TEMPORARY)
        with open(f"{self.room}/nginx/nginx.conf", "w") as it:
            it.write(f"daemon off;\nuser root;\npid {self.room}/nginx/pid;\nerror_log {self.room}/nginx/error.log;\nevents {{}}\nhttp {{\n"
                     f"    include /etc/nginx/mime.types;\n    default_type application/octet-stream;\n{temporary}    include site.conf;\n}}\n")
        told = subprocess.run(self.nginx_words("-t", "-q"), capture_output=True, text=True)
        assert told.returncode == 0, f"nginx refuses the site: {told.stderr}"

    def nginx_words(self, *more):
        return [shutil.which("nginx") or "/usr/sbin/nginx", "-p", f"{self.room}/nginx/", "-c", "nginx.conf", "-e", f"{self.room}/nginx/error.log", *more]

    def start_nginx(self, **how):
        self.configure_nginx(**how)
        self.nginx = subprocess.Popen(self.nginx_words())
        wait_for(self.port)

    def stop_nginx(self):
        self.nginx.terminate()
        self.nginx.wait()

    def restart_nginx(self, **how):
        self.stop_nginx()
        self.start_nginx(**how)

    def ask(self, method, path, body=None, session=None):
        """One request through nginx, as any client sends it."""
        data = None if body is None else json.dumps(body).encode()
        headers = {"X-Session": session} if session else {}
        request = urllib.request.Request(self.origin + path, data=data, headers=headers, method=method)
        try:
            with urllib.request.urlopen(request, context=self.trust, timeout=PATIENCE) as reply:
                return Reply(reply.status, reply.read().decode(), reply.headers)
        except urllib.error.HTTPError as reply:
            return Reply(reply.code, reply.read().decode(), reply.headers)

    def ask_all(self, requests):
        """Many requests to the host itself, over connections of its own, each of which takes at most 1,000."""
        replies = []
        for at in range(0, len(requests), 900):
            host = http.client.HTTPConnection("127.0.0.1", self.host_port, timeout=PATIENCE)
            for method, path, body, session in requests[at : at + 900]:
                host.request(method, path, json.dumps(body), {"X-Session": session} if session else {})
                reply = host.getresponse()
                replies.append(Reply(reply.status, reply.read().decode(), reply.headers))
            host.close()
        return replies

    def login(self, tenant, **body):
        """The session of a user or a reporter."""
        reply = self.ask("POST", f"/t/{tenant}/sessions", body)
        assert reply.status == 201, reply.text
        return reply.body["session"]

    def close(self):
        if self.nginx and self.nginx.poll() is None:
            self.stop_nginx()
        if self.host and self.host.poll() is None:
            self.stop_host()


TEMPORARY = ("client_body", "proxy", "fastcgi", "uwsgi", "scgi")
