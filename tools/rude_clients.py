#!/usr/bin/env python3
"""Clients for tools/smoke.sh that a server must bear: `rude_clients.py NAME PORT` ends with 0 where the server does as it should.

  drip      sends a byte of a request each second: it is ended some 30 seconds after the first
  taker     asks for /large and takes nothing: the response breaks off, some 30 seconds after the client took its last
  upload    sends a body of 2,000,000 bytes, which is refused: the 400 comes whole, and then the end
  idle      has one answer, says so, and then waits to be ended
  hold      100 connections that are idle behind an answer, 40 that have sent half a request, and 2 that take nothing of /large: others
            are answered all the same, and so are the idle ones in the end
  leave     asks for leave to send a body, and gets it before it sends one
  press     8 connections that ask again and again, until they are ended: no answer breaks off. It says how many there were
  crowd     more connections than the server has descriptors for: those that come later are answered once the first are gone
"""
import socket
import sys
import time

LARGE = 8_000_000


def connect(port, room=None):
    link = socket.socket()
    if room:
        link.setsockopt(socket.SOL_SOCKET, socket.SO_RCVBUF, room)
    link.settimeout(70)
    link.connect(("127.0.0.1", port))
    return link


def rest_of(link):
    """How many bytes come up to the end, or to a reset."""
    count = 0
    try:
        while piece := link.recv(65536):
            count += len(piece)
    except ConnectionError:
        pass
    return count


def whole_answer(link):
    """The head of an answer whose body is framed by its length, and the body."""
    text = b""
    while b"\r\n\r\n" not in text:
        piece = link.recv(4096)
        if not piece:
            sys.exit("the connection ended within a head: %r" % text)
        text += piece
    head, body = text.split(b"\r\n\r\n", 1)
    length = int(head.lower().split(b"content-length:")[1].split(b"\r\n")[0])
    while len(body) < length:
        piece = link.recv(4096)
        if not piece:
            sys.exit("the connection ended within a body")
        body += piece
    return head, body


def drip(port):
    link = connect(port)
    link.sendall(b"GET / HTTP/1.1\r\nHost: h\r\nX-Slow: ")
    link.settimeout(1)
    began = time.monotonic()
    while time.monotonic() - began < 60:
        try:
            link.sendall(b"x")
            if not link.recv(4096):
                break
        except TimeoutError:
            continue
        except ConnectionError:
            break
    passed = time.monotonic() - began
    if not 28 < passed < 45:
        sys.exit("ended after %.1f s" % passed)


def taker(port):
    link = connect(port, 4096)
    link.sendall(b"GET /large HTTP/1.1\r\nHost: h\r\n\r\n")
    time.sleep(55)
    count = rest_of(link)
    if count >= LARGE:
        sys.exit("all of the response came")


def upload(port):
    link = connect(port)
    link.sendall(b"POST /form HTTP/1.1\r\nHost: h\r\nContent-Length: 2000000\r\n\r\n")
    link.sendall(b"x" * 2_000_000)
    head, _ = whole_answer(link)
    if not head.startswith(b"HTTP/1.1 400 "):
        sys.exit("got %r" % head)
    if link.recv(4096):
        sys.exit("something stands behind the answer")


def idle(port):
    link = connect(port)
    link.sendall(b"GET /idle HTTP/1.1\r\nHost: h\r\n\r\n")
    whole_answer(link)
    print("answered", flush=True)
    began = time.monotonic()
    last = link.recv(4096)
    passed = time.monotonic() - began
    if last or passed > 20:
        sys.exit("got %r after %.1f s" % (last, passed))


def ask(link, path):
    link.sendall(b"GET %s HTTP/1.1\r\nHost: h\r\n\r\n" % path)
    head, _ = whole_answer(link)
    if not head.startswith(b"HTTP/1.1 200 "):
        sys.exit("got %r" % head)


def hold(port):
    resting = [connect(port) for _ in range(100)]
    for link in resting:
        ask(link, b"/hold")
    halves = [connect(port) for _ in range(40)]
    for link in halves:
        link.sendall(b"GET /hold HTTP/1.1\r\nHo")
    takers = [connect(port, 4096) for _ in range(2)]
    for link in takers:
        link.sendall(b"GET /large HTTP/1.1\r\nHost: h\r\n\r\n")
    time.sleep(1)
    began = time.monotonic()
    for _ in range(20):
        ask(connect(port), b"/hold")
    passed = time.monotonic() - began
    if passed > 20:
        sys.exit("20 answers took %.1f s" % passed)
    for link in resting:
        ask(link, b"/hold")
    for link in halves:
        link.sendall(b"st: h\r\n\r\n")
        whole_answer(link)


def leave(port):
    link = connect(port)
    link.sendall(b"POST /form HTTP/1.1\r\nHost: h\r\nExpect: 100-continue\r\nContent-Length: 10\r\n\r\n")
    link.settimeout(20)
    said = b""
    while not said.endswith(b"\r\n\r\n"):
        said += link.recv(1) or sys.exit("the connection ended behind %r" % said)
    if not said.startswith(b"HTTP/1.1 100 "):
        sys.exit("got %r" % said)
    link.sendall(b"some words")
    head, body = whole_answer(link)
    if not head.startswith(b"HTTP/1.1 200 ") or b"some words" not in body:
        sys.exit("got %r %r" % (head, body))


def press(port):
    links, count = [connect(port) for _ in range(8)], 0
    print("asking", flush=True)
    while links:
        for link in list(links):
            try:
                link.sendall(b"GET / HTTP/1.1\r\nHost: h\r\n\r\n")
                first = link.recv(1, socket.MSG_PEEK)
            except ConnectionError:
                first = b""
            if first:
                whole_answer(link)
                count += 1
            else:
                links.remove(link)
    print("answers", count)


def crowd(port):
    first = [connect(port) for _ in range(4)]
    time.sleep(1)
    later = [connect(port) for _ in range(4)]
    time.sleep(1)
    for link in first:
        link.close()
    for link in later:
        link.sendall(b"GET / HTTP/1.1\r\nHost: h\r\nConnection: close\r\n\r\n")
    for link in later:
        head, _ = whole_answer(link)
        link.close()
        if not head.startswith(b"HTTP/1.1 200 "):
            sys.exit("got %r" % head)


if __name__ == "__main__":
    kinds = {kind.__name__: kind for kind in (drip, taker, upload, idle, hold, leave, press, crowd)}
    kinds[sys.argv[1]](int(sys.argv[2]))
