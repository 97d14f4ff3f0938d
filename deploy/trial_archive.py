"""An archive to try an aggregator against: TimeMaps of any original, on this machine alone.

    deploy/archive [PORT] [--copies N] [--many M] [--pages P] [--tls CERTIFICATE KEY] [--name NAME]

Serves `/timemap/link/ORIGINAL` on 127.0.0.1 (PORT 8100, if none is given): N copies (40) over 24 years, but M (40) of
`http://many.example/`, cut into P pages (1) that name each other as further TimeMaps, and `/web/DATETIME/ORIGINAL`, a page
that says which copy it is. With `--tls` it speaks https alone, and names itself NAME (127.0.0.1:PORT). Scripts of any site may read
what it says.
"""
import datetime
import functools
import http.server
import ssl
from email.utils import format_datetime

from arguments import Arguments

FIRST = datetime.datetime(2001, 3, 4, 5, 6, 7, tzinfo=datetime.timezone.utc)


@functools.cache
def copies(count):
    """The datetimes of the copies, as their addresses have them and as TimeMaps do; more of them in later years."""
    span = 24 * 365 * 86400
    moments = (FIRST + datetime.timedelta(seconds=round(span * (k / count) ** 0.6)) for k in range(count))
    return [(moment.strftime("%Y%m%d%H%M%S"), format_datetime(moment, usegmt=True)) for moment in moments]


def link_page(base, original, page, pages, count):
    """Page `page` of an original's TimeMap, in link-format (RFC 7089, section 5)."""
    part = copies(count)[page * count // pages:(page + 1) * count // pages]
    lines = [f'<{original}>; rel="original"']
    for other in range(pages):
        rel = "self" if other == page else "timemap"
        number = f"{other + 1}/" if other else ""
        lines.append(f'<{base}/timemap/link/{number}{original}>; rel="{rel}"; type="application/link-format"')
    lines += [f'<{base}/web/{stamp}/{original}>; rel="memento"; datetime="{told}"' for stamp, told in part]
    return ",\n".join(lines) + "\n"


class Server(http.server.ThreadingHTTPServer):
    daemon_threads = True

    def link_page(self, original, page):
        return link_page(self.base, original, page, self.pages, self.many if "//many." in original else self.copies)


class Archive(http.server.BaseHTTPRequestHandler):
    protocol_version = "HTTP/1.1"
    timeout = 10

    def do_GET(self):
        server = self.server
        if self.path.startswith("/timemap/link/"):
            rest = self.path.removeprefix("/timemap/link/")
            number, slash, original = rest.partition("/")
            page = int(number) - 1 if slash and number.isdigit() else 0
            original = original if slash and number.isdigit() else rest
            if 0 <= page < server.pages:
                return self.reply(200, "application/link-format", server.link_page(original, page))
        elif self.path.startswith("/web/"):
            return self.reply(200, "text/plain", f"the archived copy {self.path.removeprefix('/web/')}\n")
        self.reply(404, "text/plain", "nothing here\n")

    def do_OPTIONS(self):
        self.send_response(204)
        self.send_header("Access-Control-Allow-Origin", "*")
        self.send_header("Access-Control-Allow-Headers", "Accept-Datetime")
        self.end_headers()

    def reply(self, status, kind, text):
        body = text.encode()
        self.send_response(status)
        self.send_header("Access-Control-Allow-Origin", "*")
        self.send_header("Content-Type", kind)
        self.send_header("Content-Length", str(len(body)))
        self.end_headers()
        self.wfile.write(body)

    def log_message(self, *_):
        pass


def main():
    arguments = Arguments(__doc__)
    arguments.add_argument("port", nargs="?", type=int, default=8100)
    arguments.add_argument("--copies", type=int, default=40)
    arguments.add_argument("--many", type=int, default=40)
    arguments.add_argument("--pages", type=int, default=1)
    arguments.add_argument("--tls", nargs=2)
    arguments.add_argument("--name")
    given = arguments.parse_args()
    server = Server(("127.0.0.1", given.port), Archive)
    port = server.server_address[1]
    server.copies, server.many, server.pages = given.copies, given.many, given.pages
    server.base = ("https://" if given.tls else "http://") + (given.name or f"127.0.0.1:{port}")
    if given.tls:
        context = ssl.SSLContext(ssl.PROTOCOL_TLS_SERVER)
        context.load_cert_chain(*given.tls)
        server.socket = context.wrap_socket(server.socket, server_side=True)
    print(f"archive {server.base}", flush=True)
    server.serve_forever()
