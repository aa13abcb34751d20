#!/usr/bin/env python3
"""servers.py PROGRAM: plays servers on the loopback that do not do what a server of NATS does, and has the client of the command line publish
or subscribe there. A client whose link does not come up has to end by itself, with the status and the words of its cause, within its time
limit, which is five seconds; one whose link breaks later has to come back; and one whose server reads no more has to end once a write was
blocked for ten seconds. Says in its last line how many servers there were."""
import socket
import subprocess
import sys
import threading
import time

INFO = b'INFO {"server_id":"S","version":"2.10.0","max_payload":67108864,"headers":true}\r\n'
NO_LINK = 9
REFUSED = 10
LIMIT = 5.0
WRITE_LIMIT = 10.0
MORE = 8.0


def hear(link, wanted):
    """Reads until the words came; answers what was read, and nothing where the client went before."""
    heard = b""
    while wanted not in heard:
        piece = link.recv(4096)
        if not piece:
            return b""
        heard += piece
    return heard


def greet(link):
    """Does the handshake."""
    link.sendall(INFO)
    hear(link, b"PING\r\n")
    link.sendall(b"PONG\r\n")


def says_nothing(link, _):
    link.recv(4096)


def stops_in_the_midst_of_its_first_line(link, _):
    link.sendall(INFO[:20])
    link.recv(4096)


def never_answers_the_first_ping(link, _):
    link.sendall(INFO)
    hear(link, b"PING\r\n")
    link.recv(4096)


def sends_a_megabyte_with_no_end_of_a_line(link, _):
    link.sendall(b"x" * 1048576)


def goes_at_once(link, _):
    pass


def goes_after_connect(link, _):
    link.sendall(INFO)
    hear(link, b"PING\r\n")


def refuses_the_login(link, _):
    link.sendall(INFO)
    if hear(link, b"PING\r\n"):
        link.sendall(b"-ERR 'Authorization Violation'\r\n")


def serves_web_pages(link, _):
    link.sendall(b"HTTP/1.1 400 Bad Request\r\nContent-Type: text/plain\r\nConnection: close\r\n\r\n400 Bad Request")


def wants_tls(link, _):
    link.sendall(INFO.replace(b'"headers"', b'"tls_required":true,"headers"'))
    link.recv(4096)


# What a client is told that publishes there: how long it takes at least, and its words.
NO_SERVERS = {
    says_nothing: (LIMIT, "timed out"),
    stops_in_the_midst_of_its_first_line: (LIMIT, "timed out"),
    never_answers_the_first_ping: (LIMIT, "timed out"),
    sends_a_megabyte_with_no_end_of_a_line: (0, "IO error: expected INFO, got nothing"),
    goes_at_once: (0, "IO error: expected INFO, got nothing"),
    goes_after_connect: (0, "IO error: broken pipe"),
    refuses_the_login: (0, "authorization violation: nats: authorization violation"),
    serves_web_pages: (0, "IO error: invalid server operation"),
    wants_tls: (0, "TLS error"),
}


def good(link, _):
    """Answers each PING until the client goes."""
    greet(link)
    while hear(link, b"PING\r\n"):
        link.sendall(b"PONG\r\n")


def breaks(how):
    """A server whose first link breaks so, once the client subscribed, and whose second gives it a message."""

    def play(link, number):
        greet(link)
        if hear(link, b"SUB a 1\r\n"):
            link.sendall(how if number == 1 else b"MSG a 1 2\r\nhi\r\n")
            link.recv(4096)

    return play


# How a link breaks on which a subscription stands.
BROKEN = {
    "bytes that are no operation": b"\x00\xff\xfe\r\n",
    "a message longer than a number can say": b"MSG a 1 18446744073709551616\r\n",
    "a message whose count is negative": b"MSG a 1 -1\r\n",
    "headers that end before their block": b"HMSG a 1 12 4\r\nNATS/1.0\r\n\r\n\r\n",
    "an INFO that is no JSON": b"INFO {]\r\n",
}


def reads_no_more(link, _):
    """Does the handshake, and then leaves the link alone."""
    greet(link)
    time.sleep(3 * WRITE_LIMIT)


def full():
    """An address whose queue of links is full, so that a dial is not answered: it, and what keeps it so."""
    listener = socket.socket()
    listener.bind(("127.0.0.1", 0))
    listener.listen(0)
    kept = [listener]
    for _ in range(4):
        link = socket.socket()
        link.setblocking(False)
        link.connect_ex(listener.getsockname())
        kept.append(link)
    return f"nats://127.0.0.1:{listener.getsockname()[1]}", kept


def serve(listener, play):
    """Plays a server on each link that comes, one after another."""
    number = 0
    while True:
        try:
            link, _ = listener.accept()
        except OSError:
            return
        number += 1
        try:
            play(link, number)
        except OSError:
            pass
        link.close()


def server(play):
    """Starts a server, and answers its address."""
    listener = socket.create_server(("127.0.0.1", 0))
    threading.Thread(target=serve, args=(listener, play), daemon=True).start()
    return f"nats://127.0.0.1:{listener.getsockname()[1]}"


def client(*words, given=""):
    """Runs the client with this standard input, and answers how it ended and how long it took."""
    begin = time.monotonic()
    ran = subprocess.run([sys.argv[1], *words], input=given, capture_output=True, text=True, timeout=60)
    return ran, time.monotonic() - begin


def want(name, holds, ran):
    if not holds:
        sys.exit(f"servers: {name}: status {ran.returncode}, {ran.stdout!r}, {ran.stderr!r}")


def main():
    for play, (least, words) in NO_SERVERS.items():
        ran, took = client("--server", server(play), "pub", "a", "b")
        is_told = ran.returncode == NO_LINK and ran.stderr == f"no link: {words}\n" and ran.stdout == ""
        want(play.__name__, is_told and least <= took < least + MORE, ran)
    ran, took = client("--server", server(says_nothing), "--server", server(good), "pub", "a", "b")
    want("the next of two servers", ran.returncode == 0 and took < LIMIT + MORE, ran)
    addr, _kept = full()
    ran, took = client("--server", addr, "pub", "a", "b")
    want("a dial that is not answered", ran.returncode == NO_LINK and LIMIT <= took < LIMIT + MORE, ran)
    ran, took = client("--server", server(reads_no_more), "pub", "a", "-", given="x" * 40000000)
    want("a server that reads no more", ran.returncode == REFUSED and WRITE_LIMIT <= took < 4 * WRITE_LIMIT, ran)
    for name, how in BROKEN.items():
        ran, took = client("--server", server(breaks(how)), "sub", "a", "--count", "1")
        is_back = ran.returncode == 0 and "hi" in ran.stdout and ran.stderr.startswith("connected\ndisconnected\n")
        want(name, is_back and took < MORE, ran)
    print(
        f"servers: {len(NO_SERVERS)} that are none, one passed over for the next, one that does not answer, one that reads no more,"
        f" {len(BROKEN)} whose first link breaks: as they should be"
    )


main()
