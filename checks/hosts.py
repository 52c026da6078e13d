"""What the checks share that try a served host from outside: a free port, and a host that is started, asked and killed."""
import atexit, http.client, json, signal, socket, subprocess, sys, time


def free_port():
    with socket.socket() as free:
        free.bind(("127.0.0.1", 0))
        return free.getsockname()[1]


class Host:
    """A host that listens on a port of this machine, until it is killed."""

    def __init__(self, words, port):
        self.run, self.port = subprocess.Popen(words, stdout=subprocess.DEVNULL, stderr=subprocess.PIPE), port
        atexit.register(self.run.kill)
        end = time.monotonic() + 60
        while True:
            try:
                socket.create_connection(("127.0.0.1", port), 1).close()
                return
            except OSError:
                if self.run.poll() is not None: sys.exit(f"the host ended with {self.run.returncode}: {self.run.stderr.read().decode()}")
                if time.monotonic() > end: sys.exit("the host does not listen")
                time.sleep(0.005)

    def ask(self, method, path, body=None, session=None):
        """The status and the body of the reply to one request, on a connection of its own."""
        link = http.client.HTTPConnection("127.0.0.1", self.port, timeout=60)
        link.request(method, path, None if body is None else json.dumps(body), {"X-Session": session} if session else {})
        reply = link.getresponse()
        told = reply.status, json.loads(reply.read())
        link.close()
        return told

    def kill(self, how=signal.SIGKILL):
        self.run.send_signal(how)
        self.run.wait()
        self.run.stderr.close()
        atexit.unregister(self.run.kill)
