"""Stands between nginx and the host, and can answer the next requests in the host's place, or late."""
import http.client
import http.server
import threading
import time


class Relay:
    """Hands requests on to the host. `answers` holds what is answered in its place, as (method, status, body), first come first."""

    def __init__(self, host_port):
        self.answers, self.delay, self.handed_on = [], 0, []
        relay = self

        class Handler(http.server.BaseHTTPRequestHandler):
            def handle_one(self):
                relay.answer(self, host_port)

            do_GET = do_POST = do_PUT = do_DELETE = handle_one

            def log_message(self, *words):
                pass

        self.server = http.server.ThreadingHTTPServer(("127.0.0.1", 0), Handler)
        self.port = self.server.server_address[1]
        threading.Thread(target=self.server.serve_forever, daemon=True).start()

    def answer(self, request, host_port):
        length = request.headers["Content-Length"]
        body = request.rfile.read(int(length)) if length else None
        time.sleep(self.delay)
        if self.answers and self.answers[0][0] == request.command:
            _, status, text = self.answers.pop(0)
            self.reply(request, status, text.encode())
            return
        self.handed_on.append((request.command, request.path, body))
        host = http.client.HTTPConnection("127.0.0.1", host_port)
        headers = {"X-Session": request.headers["X-Session"]} if request.headers["X-Session"] else {}
        host.request(request.command, request.path, body, headers)
        told = host.getresponse()
        self.reply(request, told.status, told.read())

    def reply(self, request, status, text):
        request.send_response(status)
        request.send_header("Content-Type", "application/json")
        request.send_header("Content-Length", str(len(text)))
        request.end_headers()
        request.wfile.write(text)

    def close(self):
        self.server.shutdown()
        self.server.server_close()
