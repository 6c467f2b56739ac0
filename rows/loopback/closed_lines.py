"""`wst` that is started with a standard device closed: what it opens does not get that number, so that a connection
carries nothing but its own bytes."""

import socket
import subprocess

from client_lines import ADDRESS, CLOSE as CLOSE_OF_SERVER, CLOSE_BACK as CLOSE_OF_CLIENT
from client_lines import EMPTY_BACK as EMPTY_OF_CLIENT, EMPTY_TEXT as EMPTY_OF_SERVER, request_for
from send_lines import SCRIPT
from server import SECONDS, WST, Client, Tested, connected, free_port, running
from wire import BAD_REQUEST, CLOSE_BACK, EMPTY_BACK, EMPTY_TEXT, HELLO, HELLO_BACK, MASKED_CLOSE, RESPONSE
from wire import request_to

INPUT, OUTPUT, FAULTS = "<&-", ">&-", "2>&-"


def start_without(closed, *words):
    """A run with these devices closed. What is written to the others comes by pipes."""
    pipes = {"stdin": subprocess.PIPE, "stdout": subprocess.PIPE, "stderr": subprocess.PIPE}
    process = subprocess.Popen(["sh", "-c", f'exec "$0" "$@" {closed}', WST, *words], **pipes)
    running.append(process)
    return process


def ended_without(closed, *words, script=b""):
    """The status, the output and the fault output of such a run that reads this."""
    process = start_without(closed, *words)
    output, faults = process.communicate(script, timeout=SECONDS)
    return process.returncode, output, faults


class TestedWithout(Tested):
    """A run with a device closed against a socket of ours that listens."""

    def __init__(self, closed, command, *words, script=b""):
        self.listener = socket.create_server(("127.0.0.1", 0))
        self.listener.settimeout(SECONDS)
        self.address = f"127.0.0.1:{self.listener.getsockname()[1]}"
        self.process = start_without(closed, command, "--timeout=10", self.address, *words)
        try:
            self.process.stdin.write(script)
            self.process.stdin.close()
        except BrokenPipeError:
            pass
        self.process.stdin = None

    def accepted(self):
        """The server's end of the connection, behind its head."""
        client = self.next()
        asked = request_to(self.address)
        assert client.get(len(asked)) == asked
        client.send(RESPONSE)
        return client


def a_script_without_an_output():
    """Its first line fails behind the first turn, and the run ends there, without reading on. The system resets a
    connection with unread bytes, so the test sends none."""
    server = TestedWithout(OUTPUT, "send", script=b'text "Hello"\nwait\ntext "Hello"\n')
    client = server.accepted()
    assert client.rest() == HELLO
    server.ends("", status=3)


def a_case_without_an_output():
    server = TestedWithout(OUTPUT, "test", "1.1.1", "1.1.1")
    client = server.accepted()
    assert client.get(len(EMPTY_TEXT)) == EMPTY_TEXT
    client.send(EMPTY_BACK)
    assert client.get(len(MASKED_CLOSE)) == MASKED_CLOSE
    client.send(CLOSE_BACK)
    assert client.rest() == b""
    client.close()
    server.ends("", status=3)
    assert server.has_no_more_clients()


def a_script_without_an_input():
    """It is the script without steps."""
    server = TestedWithout(INPUT, "send")
    client = server.accepted()
    assert client.rest() == b""
    client.close()
    server.ends("end tester\n")


def a_script_without_a_fault_output():
    server = TestedWithout(FAULTS, "send", script=SCRIPT)
    client = server.accepted()
    assert client.get(len(HELLO)) == HELLO
    client.send(HELLO_BACK)
    client.half_close()
    assert client.rest() == b""
    server.ends(
        "turn 1\n> 0 text fin=1 rsv=0 key=37fa213d len=5 short 48656c6c6f\n"
        "< 0 text fin=1 rsv=0 key=- len=5 short 48656c6c6f\nend peer\n"
    )
    server = TestedWithout(FAULTS, "send", script=SCRIPT)
    client = server.next()
    asked = request_to(server.address)
    assert client.get(len(asked)) == asked
    client.send(BAD_REQUEST)
    assert client.rest() == b""
    server.ends("", status=1)


def serves_without_an_output():
    assert ended_without(OUTPUT, "serve", "127.0.0.1:0", "1") == (3, b"", b"")
    assert ended_without(OUTPUT, "tap", "127.0.0.1:0", "127.0.0.1:1", "1") == (3, b"", b"")
    assert ended_without(OUTPUT, "test", "--role=client", ADDRESS, "1.1.1") == (3, b"", b"")


def right_client_at(port):
    """A client that does right in the case 1.1.1, by turns, and gets nothing but frames."""
    client = Client(connected(port))
    client.send(request_for("/"))
    assert client.get(len(RESPONSE + EMPTY_OF_SERVER)) == RESPONSE + EMPTY_OF_SERVER
    client.send(EMPTY_OF_CLIENT)
    assert client.get(len(CLOSE_OF_SERVER)) == CLOSE_OF_SERVER
    client.send(CLOSE_OF_CLIENT)
    assert client.rest() == b""
    client.close()


def serves_without_other_devices():
    """A client that is refused, of which the fault output tells, and one that does right."""
    for closed in (FAULTS, INPUT, f"{INPUT} {FAULTS}"):
        port = free_port()
        process = start_without(closed, "test", "--role=client", f"127.0.0.1:{port}", "1.1.1")
        client = Client(connected(port))
        client.send(b"GET / HTTP/1.1\r\nHost: x\r\n\r\n")
        assert client.rest() == BAD_REQUEST
        right_client_at(port)
        output, faults = process.communicate(timeout=SECONDS)
        told = b"" if FAULTS in closed else b"refused Upgrade\n"
        listening = b"listening on 127.0.0.1:%d\n" % port
        assert (process.returncode, output, faults) == (0, listening + b"1.1.1 PASS\n1 pass, 0 loose, 0 fail\n", told)


def a_capture_of_a_client_without_an_output():
    port = free_port()
    process = start_without(OUTPUT, "test", "--role=client", "--capture", f"127.0.0.1:{port}", "1.1.1")
    right_client_at(port)
    assert process.communicate(timeout=SECONDS) == (b"", b"listening on 127.0.0.1:%d\n" % port)
    assert process.returncode == 3


def no_network():
    """An input that is closed ends at once, and an output fails at its first write; what fails at neither is as ever."""
    assert ended_without(INPUT, "show") == (0, b"", b"")
    assert ended_without(INPUT, "pair")[0] == 0
    assert ended_without(OUTPUT, "show") == (0, b"", b"")
    assert ended_without(OUTPUT, "show", script=HELLO) == (3, b"", b"")
    assert ended_without(OUTPUT, "--help") == (3, b"", b"")
    assert ended_without(FAULTS, "cases", "9.9.9") == (2, b"", b"")
    assert ended_without(FAULTS, "show", script=HELLO_BACK)[0] == 0
    for closed in (f"{INPUT} {OUTPUT} {FAULTS}", f"{OUTPUT} {FAULTS}"):
        assert ended_without(closed, "cases") == (3, b"", b"")
        assert ended_without(closed, "cases", "9.9.9") == (2, b"", b"")


TESTS = [
    a_script_without_an_output,
    a_case_without_an_output,
    a_script_without_an_input,
    a_script_without_a_fault_output,
    serves_without_an_output,
    serves_without_other_devices,
    a_capture_of_a_client_without_an_output,
    no_network,
]
