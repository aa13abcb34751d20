"""server.py: a server on the loopback for one client after another. It prints its port; each client is greeted, and one that subscribes is sent
one message. It ends with its standard input."""
import socket
import sys
import threading

INFO = b'INFO {"server_id":"S","version":"2.10.0","max_payload":1048576,"headers":true}\r\n'


def serve(link):
    heard = b""
    is_greeted = is_sent = False
    link.sendall(INFO)
    while piece := link.recv(4096):
        heard += piece
        if not is_greeted and b"PING\r\n" in heard:
            is_greeted = True
            link.sendall(b"PONG\r\n")
        if not is_sent and b"SUB a 1\r\n" in heard:
            is_sent = True
            link.sendall(b"MSG a 1 2\r\nhi\r\n")


def main():
    listener = socket.create_server(("127.0.0.1", 0))
    print(listener.getsockname()[1], flush=True)
    threading.Thread(target=accept, args=(listener,), daemon=True).start()
    sys.stdin.read()


def accept(listener):
    while True:
        link, _ = listener.accept()
        try:
            serve(link)
        except OSError:
            pass
        link.close()


main()
