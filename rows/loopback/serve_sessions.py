"""What `wst serve` answers to a client that goes on, in whatever pieces its bytes come."""

from server import Server
from wire import BAD_REQUEST, CLOSE, CLOSE_BACK, FAILED_1002, FAILED_1007, FAILED_1009, HELLO, HELLO_BACK, NOT_MASKED
from wire import OTHER_VERSION, REQUEST, RESPONSE, binary


def served(server, *sent):
    """What a client gets that sends this and waits for the end."""
    client = server.client()
    client.send(*sent)
    return client.rest()


def answers_in_turn():
    server = Server(1)
    client = server.client()
    client.send(REQUEST)
    assert client.get(len(RESPONSE)) == RESPONSE
    for _ in range(3):
        client.send(HELLO)
        assert client.get(len(HELLO_BACK)) == HELLO_BACK
    assert server.says_nothing_for(0.05)
    client.send(CLOSE)
    assert client.rest() == CLOSE_BACK
    server.ends("1 clean 1000")


def frames_in_the_packet_of_the_head():
    server = Server(1)
    assert served(server, REQUEST, HELLO, CLOSE) == RESPONSE + HELLO_BACK + CLOSE_BACK
    server.ends("1 clean 1000")


def one_byte_a_packet():
    server = Server(1)
    client = server.client()
    for byte in REQUEST + HELLO + CLOSE:
        client.send(bytes([byte]))
    assert client.rest() == RESPONSE + HELLO_BACK + CLOSE_BACK
    server.ends("1 clean 1000")


def heads_that_are_refused():
    server = Server(5)
    assert served(server, b"\x00\x01\x02\r\n\r\n") == BAD_REQUEST
    assert server.line() == "1 refused Head"
    assert served(server, REQUEST.replace(b"GET", b"PUT")) == BAD_REQUEST
    assert server.line() == "2 refused Method"
    assert served(server, REQUEST.replace(b": 13", b": 8")) == OTHER_VERSION
    assert server.line() == "3 refused WsVersion"
    assert served(server, b"GET / HTTP/1.1\r\nX: ", b"a" * 9000) == BAD_REQUEST
    assert server.line() == "4 refused TooLarge"
    assert served(server, REQUEST.replace(b"ZQ==", b"ZQ=")) == BAD_REQUEST
    server.ends("5 refused Key")


def sessions_that_fail():
    server = Server(4, "--limit", "10")
    assert served(server, REQUEST, NOT_MASKED) == RESPONSE + FAILED_1002
    assert server.line() == "1 failed MaskWrong"
    assert served(server, REQUEST, bytes.fromhex("8182000000006180")) == RESPONSE + FAILED_1007
    assert server.line() == "2 failed NotText"
    assert served(server, REQUEST, bytes.fromhex("828b00000000")) == RESPONSE + FAILED_1009
    assert server.line() == "3 failed TooBig"
    assert served(server, REQUEST, bytes.fromhex("888000000000")) == RESPONSE + b"\x88\x00"
    server.ends("4 clean none")


def a_limit_of_a_frame():
    server = Server(2, "--limit", "10", "--frame", "4")
    assert served(server, REQUEST, bytes.fromhex("828500000000")) == RESPONSE + FAILED_1009
    assert server.line() == "1 failed FrameBig"
    two_frames = bytes.fromhex("0284000000000001020380840000000004050607")
    assert served(server, REQUEST, two_frames, CLOSE) == RESPONSE + bytes.fromhex("82080001020304050607") + CLOSE_BACK
    server.ends("2 clean 1000")


def a_budget():
    server = Server(2, "--budget", "11")
    client = server.client()
    client.send(REQUEST)
    assert client.get(len(RESPONSE)) == RESPONSE
    client.send(HELLO)
    assert client.rest() == HELLO_BACK
    assert server.line() == "1 stopped"
    assert served(server, REQUEST, HELLO, CLOSE) == RESPONSE + HELLO_BACK + CLOSE_BACK
    server.ends("2 clean 1000")


def a_half_close():
    server = Server(2)
    for number, sent, back in ((1, b"", b""), (2, HELLO, HELLO_BACK)):
        client = server.client()
        client.send(REQUEST, sent)
        client.half_close()
        assert client.rest() == RESPONSE + back
        assert server.line() == f"{number} lost"
    server.ends()


def a_second_client_waits():
    server = Server(2)
    first, second = server.client(), server.client()
    second.send(REQUEST, HELLO)
    first.send(REQUEST, HELLO)
    assert first.get(len(RESPONSE + HELLO_BACK)) == RESPONSE + HELLO_BACK
    second.stream.settimeout(0.1)
    try:
        raise AssertionError(second.get(1))
    except TimeoutError:
        pass
    second.stream.settimeout(5)
    first.send(CLOSE)
    assert first.rest() == CLOSE_BACK
    first.close()
    assert server.line() == "1 clean 1000"
    assert second.get(len(RESPONSE + HELLO_BACK)) == RESPONSE + HELLO_BACK
    second.send(bytes.fromhex("88820000000003e9"))
    assert second.rest() == bytes.fromhex("880203e9")
    server.ends("2 clean 1001")


def a_large_message():
    server = Server(1)
    client = server.client()
    client.send(REQUEST, binary(1048576), CLOSE)
    want = RESPONSE + b"\x82\x7f" + (1048576).to_bytes(8, "big") + bytes(1048576) + CLOSE_BACK
    assert client.rest() == want
    server.ends("1 clean 1000")


TESTS = [
    answers_in_turn,
    frames_in_the_packet_of_the_head,
    one_byte_a_packet,
    heads_that_are_refused,
    sessions_that_fail,
    a_limit_of_a_frame,
    a_budget,
    a_half_close,
    a_second_client_waits,
    a_large_message,
]
