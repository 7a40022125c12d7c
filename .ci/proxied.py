"""The installed office behind nginx with TLS, as the package's example has it, by a certificate that is made for it."""
import http.client
import os
import socket
import ssl
import subprocess
import time

from installed import CHIEF, end, run, serve, want

NAME = "permits.example.org"
KEEP_TO_TLS = ("Strict-Transport-Security", "max-age=31536000")
# How many requests an address may have at once, and how many a second.
BURST, RATE = 100, 20


def free_port():
    with socket.create_server(("127.0.0.1", 0)) as taken:
        return taken.getsockname()[1]


def certificate(folder):
    """A certificate of the example's name, signed by itself, and its key."""
    pem, key = folder / "permits.pem", folder / "permits.key"
    made = run("openssl", "req", "-x509", "-newkey", "rsa:2048", "-nodes", "-days", "2", "-subj", f"/CN={NAME}",
               "-addext", f"subjectAltName=DNS:{NAME}", "-out", pem, "-keyout", key)
    want(made[0] == 0, f"openssl: {made[1]}")
    return pem, key


class Proxy:
    """nginx with the package's example, whose paths and ports alone are other ones."""

    def __init__(self, root, folder, office):
        folder.mkdir()
        self.plain, self.port = free_port(), free_port()
        self.pem, key = certificate(folder)
        block = root.path("usr/share/doc/permit/examples/nginx.conf").read_text()
        changes = [("listen 80;", f"listen 127.0.0.1:{self.plain};"), ("listen 443 ssl http2;", f"listen 127.0.0.1:{self.port} ssl http2;"),
                   ("/etc/ssl/permits.pem", str(self.pem)), ("/etc/ssl/permits.key", str(key)),
                   ("/usr/share/permit/web/", f"{root.path('usr/share/permit/web')}/"), ("127.0.0.1:8080", f"127.0.0.1:{office}")]
        for old, new in changes:
            want(block.count(old) == 1, f"nginx: {old} stands in the example {block.count(old)} times")
            block = block.replace(old, new)
        paths = "".join(f"{kind}_temp_path {folder}/{kind};\n" for kind in ("client_body", "proxy", "fastcgi", "uwsgi", "scgi"))
        user = "user root;\n" if os.geteuid() == 0 else ""
        whole = f"{user}daemon off;\npid {folder}/pid;\nevents {{}}\nhttp {{\naccess_log off;\n{paths}{block}\n}}\n"
        (folder / "nginx.conf").write_text(whole)
        self.words = ["nginx", "-e", "stderr", "-p", str(folder), "-c", str(folder / "nginx.conf")]
        self.process = subprocess.Popen(self.words, stderr=subprocess.DEVNULL)
        self.tls = ssl.create_default_context(cafile=self.pem)

    def wait(self):
        """Whether it answers, after at most ten seconds."""
        for _ in range(100):
            try:
                socket.create_connection(("127.0.0.1", self.port), 1).close()
                return True
            except OSError:
                time.sleep(0.1)
        want(False, f"nginx: {run(*self.words[:1], '-t', *self.words[1:])[1]}")
        return False

    def ask(self, method, path, token=CHIEF):
        """The answer over TLS to a request by the example's name, and its body."""
        connection = http.client.HTTPSConnection("127.0.0.1", self.port, timeout=60, context=self.tls)
        plain = socket.create_connection(("127.0.0.1", self.port), 60)
        connection.sock = self.tls.wrap_socket(plain, server_hostname=NAME)
        connection.request(method, path, headers={"Host": NAME, "Authorization": f"Bearer {token}"})
        answer = connection.getresponse()
        body = answer.read().decode()
        connection.close()
        return answer, body


def try_answers(proxy):
    """The page and each answer come by TLS, with the fields that they should have."""
    page, text = proxy.ask("GET", "/office/")
    want((page.status, "<html" in text) == (200, True), f"the page by TLS: {page.status}")
    rows = [("/office/", CHIEF, 200, "no-cache"), ("/office/none.js", CHIEF, 404, "no-cache"), ("/", CHIEF, 302, None), ("/files", CHIEF, 200, "no-store"),
            ("/registers/files", CHIEF, 200, "no-store"), ("/files", "0" * 16, 401, "no-store"), ("/none", CHIEF, 404, "no-store")]
    for path, token, status, kept in rows:
        answer, _ = proxy.ask("GET", path, token)
        got = answer.status, answer.getheader("Cache-Control"), answer.getheader(KEEP_TO_TLS[0])
        want(got == (status, kept, KEEP_TO_TLS[1]), f"nginx of {path}: {got}")
    plain = http.client.HTTPConnection("127.0.0.1", proxy.plain, timeout=60)
    plain.request("GET", "/office/?a=b", headers={"Host": "other.example.org"})
    answer = plain.getresponse()
    got = answer.status, answer.getheader("Location")
    want(got == (301, f"https://{NAME}/office/?a=b"), f"nginx of port 80: {got}")


def try_limit(proxy):
    """One address has its burst, is answered 429 after it, and is served again a second later."""
    began, statuses = time.monotonic(), []
    while len(statuses) < 40 * BURST and 429 not in statuses:
        answer, _ = proxy.ask("GET", "/none")
        statuses.append(answer.status)
    spent = time.monotonic() - began
    most = BURST + 1 + RATE * (spent + 1)
    want(statuses[-1] == 429 and BURST - 20 <= len(statuses) - 1 <= most, f"nginx answered {len(statuses)} requests in {spent:.1f} s, the last by {statuses[-1]}")
    want(answer.getheader("Cache-Control") == "no-store", "nginx of an address with too many requests: it may be stored")
    want(answer.getheader("Retry-After") == "1", "nginx of an address with too many requests: when to ask again")
    want(proxy.ask("GET", "/office/")[0].status == 200, "the page is limited too")
    time.sleep(1)
    again, _ = proxy.ask("GET", "/files")
    want(again.status == 200, f"nginx a second later: {again.status}")


def try_proxy(root, folder):
    serving, port = serve(root)
    proxy = Proxy(root, folder / "proxy", port)
    try:
        if proxy.wait():
            try_answers(proxy)
            try_limit(proxy)
    finally:
        proxy.process.terminate()
        proxy.process.wait(30)
        end(serving)
