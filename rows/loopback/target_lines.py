"""What `wst test` and `wst send` ask servers for at URLs, with headers of their users, and where they connect."""

import socket
import threading

from server import SECONDS, Client, run, start
from wire import CLOSE_BACK, EMPTY_BACK, EMPTY_TEXT, MASKED_CLOSE, RESPONSE, with_line

ONE_PASS = b"1.1.1 PASS\n1 pass, 0 loose, 0 fail\n"
KEY_LINES = (
    b"Upgrade: websocket\r\nConnection: Upgrade\r\n"
    b"Sec-WebSocket-Key: dGhlIHNhbXBsZSBub25jZQ==\r\nSec-WebSocket-Version: 13\r\n"
)
FORBIDDEN = b"HTTP/1.1 403 Forbidden\r\nContent-Length: 9\r\n\r\nforbidden"
STATUS_RULE = b"  rule A server accepts a connection with the status 101 (RFC 6455 section 4.1)\n"


def asked(path, host, *lines):
    """The request for a path, with these lines behind its own."""
    more = b"".join(line + b"\r\n" for line in lines)
    return b"GET %s HTTP/1.1\r\nHost: %s\r\n" % (path, host) + KEY_LINES + more + b"\r\n"


class Asked:
    """A socket that listens, and takes one connection, which is asked so and answers so."""

    def __init__(self):
        self.listener = socket.create_server(("127.0.0.1", 0))
        self.listener.settimeout(SECONDS)
        self.port = self.listener.getsockname()[1]

    def echoes(self, request, *words):
        """`wst test` with these words passes at a server that is asked so."""
        process = start("test", *words)
        client = Client(self.listener.accept()[0])
        got = client.get(len(request))
        assert got == request, got
        client.send(RESPONSE)
        assert client.get(len(EMPTY_TEXT)) == EMPTY_TEXT
        client.send(EMPTY_BACK)
        assert client.get(len(MASKED_CLOSE)) == MASKED_CLOSE
        client.send(CLOSE_BACK)
        client.close()
        output, faults = process.communicate(timeout=SECONDS)
        assert (process.returncode, output, faults) == (0, ONE_PASS, b""), (output, faults)

    def refuses(self, answer, *words):
        """What comes of a run with these words, at a server that answers so."""
        process = start(*words)
        client = Client(self.listener.accept()[0])
        client.send(answer)
        output, faults = process.communicate(timeout=SECONDS)
        client.close()
        return process.returncode, output, faults


def a_server_that_wants_a_path_and_headers():
    server = Asked()
    headers = (b"Origin: http://localhost", b"Authorization: Bearer a: b")
    words = [word for header in headers for word in ("--header", header.decode())]
    request = asked(b"/echo?x=1+2", b"127.0.0.1:%d" % server.port, *headers)
    server.echoes(request, *words, f"ws://127.0.0.1:{server.port}/echo?x=1+2", "1.1.1")


# What a server asks for, in this order, and its refusal of a request that lacks it.
WANTED = (
    (b"GET /echo?x=1+2 HTTP/1.1", b"404 Not Found"),
    (b"Authorization: Bearer t", b"401 Unauthorized"),
    (b"Origin: http://localhost", b"403 Forbidden"),
)


def answer_to(request):
    lines = request.split(b"\r\n")
    lacks = [status for line, status in WANTED if line not in lines]
    return b"HTTP/1.1 %s\r\nContent-Length: 4\r\n\r\nnot\n" % lacks[0] if lacks else RESPONSE


def what_a_server_wants():
    """A server refuses a request that lacks its path, its authorization or its origin, and each status is told."""
    origin, token = ["--header", "Origin: http://localhost"], ["--header", "Authorization: Bearer t"]
    for path, headers, status in (
        ("", [*origin, *token], 404),
        ("echo", [*origin, *token], 404),
        ("echo?x=1%2B2", [*token, *origin], 404),
        ("echo?x=1+2", origin, 401),
        ("echo?x=1+2", [*origin, "--header", "Authorization: Bearer T"], 401),
        ("echo?x=1+2", token, 403),
        ("echo?x=1+2", [*token, *origin], None),
    ):
        server = Asked()
        process = start("test", "--explain", *headers, f"ws://127.0.0.1:{server.port}/{path}", "1.1.1")
        client = Client(server.listener.accept()[0])
        answer = answer_to(client.head())
        client.send(answer, EMPTY_BACK if status is None else b"")
        if status is None:
            client.get(len(EMPTY_TEXT + MASKED_CLOSE))
            client.send(CLOSE_BACK)
        client.close()
        output, faults = process.communicate(timeout=SECONDS)
        refused = b"1.1.1 FAIL Head Status\n  status %d\n" % (status or 0) + STATUS_RULE + b"0 pass, 0 loose, 1 fail\n"
        assert (output, faults) == (ONE_PASS if status is None else refused, b""), (path, output, faults)
        assert process.returncode == int(status is not None), path


def headers_behind_the_offers():
    server = Asked()
    lines = (b"Sec-WebSocket-Protocol: chat", b"X: ", b"X: 2")
    words = ("--header", "X: ", "--protocols", "chat", "--header", "X: 2")
    server.echoes(asked(b"/", b"127.0.0.1:%d" % server.port, *lines), *words, f"127.0.0.1:{server.port}", "1.1.1")


def paths_as_they_stand():
    for behind, path in (
        (b"", b"/"),
        (b"?a=/b", b"/?a=/b"),
        (b"//a/../%41", b"//a/../%41"),
        (b"/a?ws://b", b"/a?ws://b"),
    ):
        server = Asked()
        host = b"127.0.0.1:%d" % server.port
        server.echoes(asked(path, host), (b"wS://" + host + behind).decode(), "1.1.1")


def the_port_80_is_not_told():
    for url in ("ws://example.org/a", "ws://example.org:80/a"):
        server = Asked()
        server.echoes(asked(b"/a", b"example.org"), "--connect", f"127.0.0.1:{server.port}", url, "1.1.1")


def another_port_is_told_where_it_is_not_connected_to():
    server = Asked()
    request = asked(b"/", b"example.org:9443")
    server.echoes(request, "--connect", f"127.0.0.1:{server.port}", "ws://example.org:9443", "1.1.1")
    server.echoes(request, "--connect", f"127.0.0.1:{server.port}", "example.org:9443", "1.1.1")


def a_status_that_is_told():
    server = Asked()
    target = f"ws://127.0.0.1:{server.port}/echo"
    line, total = b"1.1.1 FAIL Head Status\n", b"0 pass, 0 loose, 1 fail\n"
    told = server.refuses(FORBIDDEN, "test", "--explain", target, "1.1.1")
    assert told == (1, line + b"  status 403\n" + STATUS_RULE + total, b""), told
    assert server.refuses(FORBIDDEN, "test", target, "1.1.1") == (1, line + total, b"")
    assert server.refuses(FORBIDDEN, "test", "--explain", "--capture", target, "1.1.1") == (1, line, b"")
    low = FORBIDDEN.replace(b"403 Forbidden", b"007 Low")
    told = server.refuses(low, "test", "--explain", target, "1.1.1")
    assert told == (1, line + b"  status 007\n" + STATUS_RULE + total, b""), told


ACCEPT = (
    "A response has exactly one Sec-WebSocket-Accept, the value for the key of the request "
    "(RFC 6455 sections 4.1 and 4.2.2)"
)
REFUSALS = (
    ("Head", "A server answers in HTTP (RFC 6455 section 4.2.2)", b"SSH-2.0-OpenSSH_9.6\r\n"),
    ("TooLarge", "A head has at most 8192 bytes and 64 headers (ours)", with_line(RESPONSE, b"X: " + 8192 * b"a")),
    (
        "Version",
        "A head is one of HTTP/1.1 (RFC 6455 sections 4.2.1 and 4.2.2)",
        RESPONSE.replace(b"HTTP/1.1", b"HTTP/1.0"),
    ),
    (
        "Upgrade",
        "A head has an Upgrade that names websocket (RFC 6455 sections 4.1 and 4.2.1)",
        RESPONSE.replace(b": websocket", b": h2c"),
    ),
    (
        "Connection",
        "A head has a Connection that names Upgrade (RFC 6455 sections 4.1 and 4.2.1)",
        RESPONSE.replace(b"Connection: Upgrade", b"Connection: close"),
    ),
    ("Accept", ACCEPT, RESPONSE.replace(b"s3pPLMB", b"s3pPLMC")),
    (
        "Extension",
        "A response names no extension that was not offered, and none was (RFC 6455 section 4.1)",
        with_line(RESPONSE, b"Sec-WebSocket-Extensions: x"),
    ),
    (
        "Protocol",
        "A response names at most one subprotocol, and one that was offered (RFC 6455 section 4.1)",
        with_line(RESPONSE, b"Sec-WebSocket-Protocol: chat"),
    ),
)


def another_refusal_has_its_rule_and_no_status():
    server = Asked()
    address = f"127.0.0.1:{server.port}"
    for name, rule, answer in REFUSALS:
        line, total = f"1.1.1 FAIL Head {name}\n".encode(), b"0 pass, 0 loose, 1 fail\n"
        below = f"  rule {rule}\n".encode()
        told = server.refuses(answer, "test", "--explain", address, "1.1.1")
        assert told == (1, line + below + total, b""), told
        assert server.refuses(answer, "test", address, "1.1.1") == (1, line + total, b"")


def a_script_at_a_url():
    server = Asked()
    host = b"127.0.0.1:%d" % server.port
    got = []

    def answers():
        client = Client(server.listener.accept()[0])
        got.append(client.get(len(asked(b"/echo", host, b"X: y"))))
        client.send(FORBIDDEN)
        client.close()

    thread = threading.Thread(target=answers)
    thread.start()
    told = run("send", "--header", "X: y", f"ws://127.0.0.1:{server.port}/echo")
    thread.join()
    assert got == [asked(b"/echo", host, b"X: y")], got
    assert told == (1, b"", b"FAIL Head Status\n  status 403\n" + STATUS_RULE), told


TESTS = [
    a_server_that_wants_a_path_and_headers,
    what_a_server_wants,
    headers_behind_the_offers,
    paths_as_they_stand,
    the_port_80_is_not_told,
    another_port_is_told_where_it_is_not_connected_to,
    a_status_that_is_told,
    another_refusal_has_its_rule_and_no_status,
    a_script_at_a_url,
]
