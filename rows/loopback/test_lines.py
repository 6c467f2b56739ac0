"""What `wst test` writes of servers at an address, which are raw sockets here, and how it ends."""

import socket

from server import SECONDS, Tested, run
from wire import BAD_REQUEST, CLOSE_BACK, EMPTY_BACK, EMPTY_TEXT, MASKED_CLOSE, NAMES_BOTH, NAMES_SOAP, NAMES_SUPERCHAT, RESPONSE
from wire import request_to, with_line

ONE_PASS = "1.1.1 PASS\n1 pass, 0 loose, 0 fail\n"
CAPTURE = """wst-capture 2
key 37fa213d
turn
> 818037fa213d
< 8100
turn
> 888237fa213d3412
< 880203e8
end peer
"""

NO_ADDRESSES = ("127.0.0.1", "127.0.0.1:", "127.0.0.1:65536", "127.0.0.1:x", "no.such.host.invalid:9")


def passes(server):
    """A server that does right in the case 1.1.1, by turns."""
    client = server.next()
    asked = request_to(server.address)
    assert client.get(len(asked)) == asked
    client.send(RESPONSE)
    assert client.get(len(EMPTY_TEXT)) == EMPTY_TEXT
    client.send(EMPTY_BACK)
    assert client.get(len(MASKED_CLOSE)) == MASKED_CLOSE
    client.send(CLOSE_BACK)
    client.close()


def by_turns():
    server = Tested("1.1.1")
    passes(server)
    server.ends(ONE_PASS)


def a_connection_a_case():
    server = Tested("1.1.1", "1.1.1")
    passes(server)
    assert server.line() == "1.1.1 PASS"
    passes(server)
    server.ends("1.1.1 PASS\n2 pass, 0 loose, 0 fail\n")


def a_frame_in_the_packet_of_the_head():
    server = Tested("1.1.1")
    client = server.next()
    client.send(RESPONSE, EMPTY_BACK)
    sent = request_to(server.address) + EMPTY_TEXT + MASKED_CLOSE
    assert client.get(len(sent)) == sent
    client.send(CLOSE_BACK)
    client.close()
    server.ends(ONE_PASS)


def one_byte_a_packet_of_a_server():
    server = Tested("1.1.1")
    client = server.next()
    for byte in RESPONSE + EMPTY_BACK:
        client.send(bytes([byte]))
    sent = request_to(server.address) + EMPTY_TEXT + MASKED_CLOSE
    assert client.get(len(sent)) == sent
    for byte in CLOSE_BACK:
        client.send(bytes([byte]))
    client.close()
    server.ends(ONE_PASS)


def a_server_that_waits_for_the_testers_end():
    """Behind the close of the server the tester ends its own direction, and reads on."""
    server = Tested("1.1.1")
    client = server.next()
    client.send(RESPONSE, EMPTY_BACK)
    sent = request_to(server.address) + EMPTY_TEXT + MASKED_CLOSE
    assert client.get(len(sent)) == sent
    client.send(CLOSE_BACK)
    assert client.rest() == b""
    client.close()
    server.ends(ONE_PASS)


def offers():
    for answer in (NAMES_SUPERCHAT, RESPONSE):
        server = Tested("--protocols=chat,superchat", "1.1.1")
        client = server.next()
        asked = with_line(request_to(server.address), b"Sec-WebSocket-Protocol: chat, superchat")
        assert client.get(len(asked)) == asked
        client.send(answer, EMPTY_BACK)
        assert client.get(len(EMPTY_TEXT + MASKED_CLOSE)) == EMPTY_TEXT + MASKED_CLOSE
        client.send(CLOSE_BACK)
        client.close()
        server.ends(ONE_PASS)


def what_was_not_offered():
    for words, answer in (
        (("--protocols=chat,superchat", "1.1.1"), NAMES_SOAP),
        (("--protocols=chat,superchat", "1.1.1"), NAMES_BOTH),
        (("1.1.1",), NAMES_SUPERCHAT),
    ):
        server = Tested(*words)
        server.next().send(answer)
        server.ends("1.1.1 FAIL Head Protocol\n0 pass, 0 loose, 1 fail\n", status=1)


def by_name():
    server = Tested("1.1.1", host="localhost")
    passes(server)
    server.ends(ONE_PASS)


def a_capture():
    server = Tested("--capture", "1.1.1")
    passes(server)
    server.ends(CAPTURE)


def a_capture_of_a_refused_head():
    server = Tested("--capture", "1.1.1")
    client = server.next()
    client.send(BAD_REQUEST)
    server.ends("1.1.1 FAIL Head Status\n", status=1)


def no_listener():
    with socket.socket() as closed:
        closed.bind(("127.0.0.1", 0))
        address = f"127.0.0.1:{closed.getsockname()[1]}"
        line, refused = b"1.1.1 no connection\n", b"no connection: refused\n"
        tried = f"  tried {address}\n".encode()
        assert run("test", address, "1.1.1", "1.1.2") == (3, line, refused + tried)
        assert run("test", "--connect", address, "ws://localhost/chat", "1.1.1") == (3, line, refused + tried)
        assert run("test", "--capture", address, "1.1.1") == (3, line, refused)


def no_address_to_test():
    for address in NO_ADDRESSES:
        told = (3, b"1.1.1 no connection\n", b"no connection: no such host\n  HOST:PORT, up to 65535, or with a path ws://localhost:9001/chat\n")
        assert run("test", address, "1.1.1") == told, address


def no_address_before_other_faults():
    for words, told in (
        (("--protocols", "", "--timeout", "0", "--key", "x", "a b", "1.1.1"), b"bad protocol list\n  up to 16 different names, joined by commas: --protocols chat,echo\n"),
        (("--timeout", "02", "--key", "x", "a b", "1.1.1"), b"bad timeout\n  a whole number of seconds, 1 to 3600: --timeout 5\n"),
        (("--key", "x", "a b", "1.1.1"), b"bad key\n  eight lower-case hexadecimal digits: --key 37fa213d\n"),
        (("a b", "0.0.0"), b"bad address\n"),
        (("--capture", "127.0.0.1:1"), b"--capture takes one case\n"),
        (("127.0.0.1:1", "1.1.1", "0.0.0"), b"no such case: 0.0.0\n  wst cases lists them; a star stands for a group: '2.*'\n"),
    ):
        assert run("test", *words) == (2, b"", told), words


def a_line_of_a_case_can_not_be_written():
    server = Tested("1.1.1", "1.1.1")
    server.process.stdout.close()
    passes(server)
    assert server.process.wait(SECONDS) == 3
    assert server.has_no_more_clients()


TESTS = [
    by_turns,
    a_connection_a_case,
    a_frame_in_the_packet_of_the_head,
    one_byte_a_packet_of_a_server,
    a_server_that_waits_for_the_testers_end,
    offers,
    what_was_not_offered,
    by_name,
    a_capture,
    a_capture_of_a_refused_head,
    no_listener,
    no_address_to_test,
    no_address_before_other_faults,
    a_line_of_a_case_can_not_be_written,
]
