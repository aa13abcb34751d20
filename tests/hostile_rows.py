#!/usr/bin/env python3
"""hostile_rows.py: prints the hostile rows of crates/nats_route_rows, a line for its stdin and one for its stdout each.

A hundred peers join; ten speak the protocol, and ninety write bytes that end them, leave them waiting, or are refused.
What each peer is told is worked out here, apart from the library. The seeds are fixed, so a run prints the same rows.
"""
import json, random, re

MAX, GOOD, ALL = 64, 10, 100
NUMBER = re.compile(r"0|[1-9][0-9]*")
BAD, BIG = b"-ERR 'Unknown Protocol Operation'\r\n", b"-ERR 'Maximum Payload Violation'\r\n"


def spelled(data):
    return "".join(chr(b) if 0x21 <= b <= 0x7E and b != 0x25 else f"%{b:02X}" for b in data) or "%"


def matches(pattern, subject):
    wanted, given = pattern.split("."), subject.split(".")
    for at, token in enumerate(wanted):
        if token == ">" and at == len(wanted) - 1:
            return len(given) > at
        if at >= len(given) or token not in ("*", given[at]):
            return False
    return len(wanted) == len(given)


class Bad(Exception):
    pass


class Big(Exception):
    pass


def number(text):
    if not NUMBER.fullmatch(text) or int(text) >= 2**64:
        raise Bad
    return int(text)


class Model:
    def __init__(self):
        self.peers, self.interests = [], []

    def join(self):
        self.peers.append({"word": "up", "unread": b"", "text": b"", "echo": True, "tell": False})

    def feed(self, p, data):
        peer = self.peers[p]
        peer["unread"] += data
        try:
            while peer["unread"] and (used := self.command(p, peer["unread"])):
                peer["unread"] = peer["unread"][used:]
        except Bad:
            self.end(p, "bad", BAD)
        except Big:
            self.end(p, "size", BIG)

    def end(self, p, word, text):
        self.peers[p].update(word=word, unread=b"", text=self.peers[p]["text"] + text)
        self.interests = [it for it in self.interests if it["peer"] != p]

    def command(self, p, data):
        end = data.find(b"\r\n")
        if end < 0:
            return 0
        line, peer = data[:end], self.peers[p]
        if line.startswith(b"CONNECT "):
            return self.connect(peer, line[8:]) or end + 2
        try:
            words = line.decode().split(" ")
        except UnicodeDecodeError:
            raise Bad
        if any(not it or re.search(r"[ \t\r\n]", it) for it in words):
            raise Bad
        verb, words = words[0], words[1:]
        if verb == "PING" and not words:
            peer["text"] += b"PONG\r\n"
        elif verb == "SUB" and len(words) == 2:
            self.subscribe(p, words[0], number(words[1]))
        elif verb == "UNSUB" and len(words) == 1:
            sid = number(words[0])
            self.interests = [it for it in self.interests if (it["peer"], it["sid"]) != (p, sid)]
        elif verb == "PUB" and len(words) in (2, 3):
            return self.publish(p, words[0], words[1] if len(words) == 3 else None, number(words[-1]), data[end + 2:], end + 2)
        elif verb == "HPUB" and len(words) in (3, 4):
            return self.publish_headed(number(words[-2]), number(words[-1]), data[end + 2:])
        else:
            raise Bad
        return end + 2

    def publish_headed(self, block, count, rest):
        """None of the blocks here is one: such a publish is bad once it is there whole."""
        if count >= block and len(rest) < count + 2:
            return 0
        raise Bad

    def connect(self, peer, text):
        try:
            said = json.loads(text.decode())
        except ValueError:
            raise Bad
        if not isinstance(said, dict):
            raise Bad
        for word, kept in (("echo", "echo"), ("no_responders", "tell")):
            if isinstance(said.get(word), bool):
                peer[kept] = said[word]

    def subscribe(self, p, pattern, sid):
        if not all(pattern.split(".")):
            self.peers[p]["text"] += b"-ERR 'Invalid Subject'\r\n"
        elif not any((it["peer"], it["sid"]) == (p, sid) for it in self.interests):
            self.interests.append({"peer": p, "sid": sid, "pattern": pattern})

    def publish(self, p, subject, reply, count, rest, head):
        if len(rest) < count + 2:
            return 0
        if rest[count:count + 2] != b"\r\n" or any(c.isspace() for c in subject + (reply or "")):
            raise Bad
        if count > MAX:
            raise Big
        heard = [it for it in self.interests if matches(it["pattern"], subject) and (self.peers[p]["echo"] or it["peer"] != p)]
        for it in heard:
            told = " ".join(["MSG", subject, str(it["sid"])] + ([reply] if reply else []) + [str(count)])
            self.peers[it["peer"]]["text"] += told.encode() + b"\r\n" + rest[:count] + b"\r\n"
        if not heard and reply and self.peers[p]["tell"]:
            for it in self.interests:
                if it["peer"] == p and matches(it["pattern"], reply):
                    self.peers[p]["text"] += f"HMSG {reply} {it['sid']} 16 16\r\nNATS/1.0 503\r\n\r\n\r\n".encode()
                    break
        return head + count + 2


def hostile(rng):
    """Bytes of a peer that means no good."""
    noise = bytes(rng.choice(b"\x00\x01\x7f\x80\xc3\xff%{}>*. \tPUBSMG09") for _ in range(rng.randint(1, 24)))
    return rng.choice([
        noise, noise + b"\r\n", b"\r\n", b"PUB news.1 2\r\nhiX\r\n", b"PUB news.1 -1\r\n", b"PUB news.1 02\r\nhi\r\n",
        b"PUB news.1 18446744073709551616\r\n", b"PUB news.1 65\r\n" + b"x" * 65 + b"\r\n", b"PUB news.1 9999\r\nMSG news.1 1 2\r\nhi\r\n",
        "PUB news.\u00a01 2\r\nhi\r\n".encode(), "PUB news.1 r\u2028 2\r\nhi\r\n".encode(), b"PUB news.\xff 2\r\nhi\r\n",
        b"MSG news.1 1 2\r\nhi\r\n", b"+OK\r\nPING\r\n", b"-ERR 'no'\r\n", b"INFO {}\r\n", b"CONNECT [1]\r\n", b"CONNECT {\"echo\":\r\n",
        b"HPUB news.1 12 14\r\nNATS/2.0\r\n\r\nhi\r\n", b"SUB news.> 1\r\nPUB  news.1 2\r\nhi\r\n", b"SUB news..1 1\r\nSUB news.* x\r\n",
        b"SUB news.> 1\r\nPUB news.2 3\r\nbad\r\nSUB\r\n", b"UNSUB 1\r\nUNSUB 1 x\r\n", b"PUB news.3 14\r\nPUB news.4 0\r\n\r\n\r\nPING \r\n",
    ])


def row(seed):
    rng, model, script = random.Random(seed), Model(), [f"max {MAX}"] + ["join"] * ALL
    for _ in range(ALL):
        model.join()

    def feed(p, data):
        if model.peers[p]["word"] != "up":
            return
        cut = rng.randint(0, len(data))
        for piece in (data[:cut], data[cut:]):
            if piece and model.peers[p]["word"] == "up":
                script.append(f"feed {p + 1} {spelled(piece)}")
                model.feed(p, piece)

    for p in range(GOOD):
        feed(p, b"CONNECT {\"no_responders\":true}\r\n" + f"SUB news.{p} 1\r\nSUB news.* 2\r\nSUB i{p}.* 3\r\n".encode())
    order = [p for p in range(GOOD, ALL) for _ in range(2)]
    rng.shuffle(order)
    for at, p in enumerate(order):
        feed(p, hostile(rng))
        if at % 9 == 0:
            good = rng.randrange(GOOD)
            feed(good, f"PUB news.{rng.randrange(GOOD)} i{good}.T{at} 2\r\nhi\r\nPUB nobody i{good}.T{at} 0\r\n\r\nPING\r\n".encode())
    said = [it for n, p in enumerate(model.peers, 1) for it in (f"peer {n} {p['word']}", f"text {spelled(p['text'])}")]
    return "\t".join(script), "\t".join(["rows"] + said)


if __name__ == "__main__":
    for seed in (1, 2, 3):
        for line in row(seed):
            print(line)
