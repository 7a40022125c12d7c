"""An office filled with files, and a client of its server, for the measurements."""
import hashlib
import socket
import sqlite3

PARTIES = PARCELS = 10_000
DAY, DATE = 19_723, "2024-01-01"
OFFICIAL, REVIEWER, RESIDENT = 1, 2, 3
REQUIRED = [[0, 1, 2, 5, 3, 4], [0, 1, 2, 5, 3, 4], [2, 5, 3, 4], [2, 4], [0, 2, 4], [4], [4]]
FINALED, TIMED = 8, (0, 1, 2, 3, 5, 6)


def token(party):
    return f"tokentokentoken{party}"


def fill(path, files, required=REQUIRED):
    """Fills a founded database: the resident applied for six files, is the contractor of three and owns one's parcel."""
    conn = sqlite3.connect(path, isolation_level=None)
    conn.execute("BEGIN")
    roles = {2: 2, **{k: 2 for k in range(4, 14)}, **{k: 3 for k in range(14, 24)}}
    digests = ((k, hashlib.sha256(token(k).encode()).hexdigest()) for k in range(2, PARTIES + 1))
    conn.executemany("INSERT INTO party VALUES (?, ?, ?, ?)", ((k, f"Party {k}", roles.get(k, 0), d) for k, d in digests))
    other = lambda k: 24 + k % (PARTIES - 23)
    parcels = ((k, f"L-{k}", f"{k} Main St", RESIDENT if k == 1 else other(k * 31)) for k in range(1, PARCELS + 1))
    conn.executemany("INSERT INTO parcel VALUES (?, ?, ?, ?)", parcels)
    own = {files // 10 * turn + 1: turn for turn in range(10)}
    for k in range(1, files + 1):
        turn = own.get(k)
        parcel = 1 if turn == 9 else k * 17 % (PARCELS - 1) + 2
        applicant = RESIDENT if turn in range(6) else other(k * 13)
        contractor = RESIDENT if turn in range(6, 9) else other(k * 7) if k % 2 else 0
        reviewer = REVIEWER if k % (files // 200) == 0 else 4 + k % 10 if k % 3 else 0
        kind, stage = k % 7, k * 7919 % 9
        filed = DAY - k % (100 if turn is not None else 250)
        deadline = filed + 180 if stage in TIMED else -1
        done = len(required[kind]) if stage == FINALED else 0
        papers = 2 if k % 12 < 7 else 0
        people = (parcel, applicant, contractor, reviewer, 14 + k % 10 if k % 5 else 0)
        row = (k, *people, kind, k * 1000, f"House {k} on a corner lot", filed, stage, deadline, done, -1, -1, 0, 0, 0, papers, -1)
        conn.execute(f"INSERT INTO file VALUES ({', '.join('?' * 20)})", row)
        if papers:
            conn.execute("INSERT INTO paper VALUES (?, 1, ?, ?, 4, 30, 'Late delivery of the frame', '', 0)", (k, filed, applicant))
            conn.execute("INSERT INTO paper VALUES (?, 2, ?, 1, 6, 0, 'No cause was shown', '', 0)", (k, filed))
    conn.execute("UPDATE desk SET last = ?, parties = ?, parcels = ?, files = ?", (DAY, PARTIES, PARCELS, files))
    conn.execute("COMMIT")
    conn.execute("PRAGMA wal_checkpoint(TRUNCATE)")
    conn.close()


class Client:
    """One connection, kept as long as the server keeps it."""

    def __init__(self, port):
        self.port, self.socket, self.buffer = port, None, bytearray(1 << 26)

    def get(self, path, caller):
        """An answer's body. A server closes a connection on which nothing was said for 2 seconds, and then another is made."""
        request = f"GET {path} HTTP/1.1\r\nHost: office\r\nAuthorization: Bearer {token(caller)}\r\n\r\n".encode()
        for _ in range(2):
            if self.socket is None:
                self.socket = socket.create_connection(("127.0.0.1", self.port))
                self.socket.setsockopt(socket.IPPROTO_TCP, socket.TCP_NODELAY, 1)
            body = self.ask(request)
            if body is not None:
                return body
            self.close()
        raise ConnectionError(path)

    def ask(self, request):
        """The body of the answer to a request; None where the connection is closed."""
        view, have, body, whole = memoryview(self.buffer), 0, 0, 0
        try:
            self.socket.sendall(request)
            while not whole or have < whole:
                got = self.socket.recv_into(view[have:])
                if not got:
                    return None
                have += got
                if not whole and (body := self.buffer.find(b"\r\n\r\n", 0, have) + 4) > 3:
                    head = bytes(view[:body]).lower()
                    whole = body + int(head.split(b"content-length:")[1].split(b"\r\n")[0])
        except (BrokenPipeError, ConnectionResetError):
            return None
        if b"connection: close" in head:
            self.close()
        return view[body:have]

    def close(self):
        self.socket.close()
        self.socket = None
