#!/usr/bin/env python3
"""A service for `poolman serve`: services.py PORT

Does jobs on this port of the loopback. A job of the function upper is a POST to /jobs/upper, with its data as the body. Status 200 comes with
the result, 404 is for a function that is not here, and 500 for data that the function cannot use, both with a reason. A line of standard
output says what became of each job: its worker, its handle, its unique id, its function, and the status.

For a function of your own, write it and name it in FUNCTIONS.
"""
import http.server
import sys
import urllib.parse


def upper(data):
    """The text in capitals."""
    return data.decode().upper().encode()


def count_words(data):
    """How many words the text has, in decimal."""
    return str(len(data.decode().split())).encode()


# What is done by which name: from bytes to bytes, or an exception, whose words go to the client.
FUNCTIONS = {"upper": upper, "count_words": count_words}


def answer(function, data):
    """The status and the body for a job."""
    if function not in FUNCTIONS:
        return 404, f"there is no function {function}".encode()
    try:
        return 200, FUNCTIONS[function](data)
    except Exception as error:
        # Without a response the job would go to another worker, and from there to the next.
        return 500, f"{type(error).__name__}: {error}".encode()


class Exchanges(http.server.BaseHTTPRequestHandler):
    """The jobs of one kept connection, one after another."""

    protocol_version = "HTTP/1.1"
    # Head and body of a response leave together.
    wbufsize = -1

    def do_POST(self):
        length = int(self.headers.get("content-length", 0))
        data = self.rfile.read(length)
        if len(data) < length:
            # The connection ended before all came, and nobody waits for an answer: the job goes to another worker.
            self.close_connection = True
            return
        place, _, name = self.path.rpartition("/")
        function = urllib.parse.unquote(name)
        status, body = answer(function, data) if place == "/jobs" else (404, b"jobs go to /jobs/FUNCTION")
        self.tell(function, status)
        self.send_response(status)
        self.send_header("content-length", str(len(body)))
        self.end_headers()
        self.wfile.write(body)

    def tell(self, function, status):
        """Writes the line of a job, before its response: whatever was answered has its line."""
        job = [self.headers.get(name, "-") for name in ("poolman-worker", "gearman-handle", "gearman-unique")]
        sys.stdout.write(" ".join([*job, function, f"{status}\n"]))
        sys.stdout.flush()

    def log_message(self, *_):
        """No other lines."""


class Service(http.server.ThreadingHTTPServer):
    """A thread for each connection, of which many may come at once."""

    request_queue_size = 256
    daemon_threads = True

    def handle_error(self, request, address):
        """Says nothing of a connection that its peer has ended."""
        if not isinstance(sys.exc_info()[1], ConnectionError):
            super().handle_error(request, address)


def main(port):
    with Service(("127.0.0.1", port), Exchanges) as service:
        try:
            service.serve_forever()
        except KeyboardInterrupt:
            pass


if __name__ == "__main__":
    if len(sys.argv) != 2 or not sys.argv[1].isdecimal():
        sys.exit(__doc__)
    main(int(sys.argv[1]))
