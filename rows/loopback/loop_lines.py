"""Exchanges of `test_loops` over sockets: an echo that writes before it reads on, addresses that take no connection,
and how long it waits; and clients of one loop that listens."""

import os
import resource
import signal
import socket
import subprocess
import threading
import time
from pathlib import Path

LOOPS = Path(__file__).resolve().parents[2] / "crates/test_loops/out/test_loops"
SECONDS = 20


def answer_to(row):
    """The answer to a row."""
    run = subprocess.run([LOOPS], input=f"{row}\n".encode(), capture_output=True, timeout=SECONDS)
    assert run.returncode == 0, run
    return run.stdout.decode().rstrip("\n")


def lasted(answer, front, tenths, more=9):
    """The answer begins so, and its run took so many tenths of a second, or some more."""
    said, _, rest = answer.partition("; ")
    assert said.startswith(front) and tenths <= int(rest.split()[0]) <= tenths + more, answer


class Listening:
    """A server at 127.0.0.1, whose first client is served by this."""

    def __init__(self, serve):
        self.listener = socket.create_server(("127.0.0.1", 0))
        self.port = self.listener.getsockname()[1]
        self.thread = threading.Thread(target=self.run, args=(serve,))

    def run(self, serve):
        client, _ = self.listener.accept()
        with client:
            serve(client)

    def __enter__(self):
        self.thread.start()
        return self

    def __exit__(self, kind, error, trace):
        self.listener.close()
        self.thread.join(SECONDS)


def echo(client):
    """Writes all that it has read before it reads on."""
    while piece := client.recv(65536):
        client.sendall(piece)


def read_to_end(client):
    while client.recv(65536):
        pass


def a_large_exchange_with_an_echo_that_writes_first():
    with Listening(echo) as server:
        answer = answer_to(f"socket 127.0.0.1:{server.port} 5000 - 33554432 33554432")
    assert answer.startswith("came 33554432 right; "), answer


def the_next_address_of_a_name_is_tried():
    """localhost has two addresses on most machines, of which the first has no listener here."""
    with Listening(echo) as server:
        answer = answer_to(f"socket localhost:{server.port} 5000 - 2 2")
    lasted(answer, "came 2 right", 0)


def each_address_of_a_name_is_tried():
    """A name of three addresses of this machine, of which the last has a listener: the others refuse at once."""
    with Listening(echo) as server:
        answer = answer_to(f"socket 127.0.0.3,127.0.0.2,127.0.0.1:{server.port} 5000 - 2 2")
    lasted(answer, "came 2 right", 0)


def a_connection_that_is_refused():
    with socket.create_server(("127.0.0.1", 0)) as taken:
        port = taken.getsockname()[1]
    answer = answer_to(f"socket 127.0.0.1:{port} 5000 - 2 2")
    assert "refused" in answer, answer
    lasted(answer, "failed: ", 0)


def no_such_name():
    answer = answer_to("socket no-port 5000 - 2 2")
    assert answer.startswith("failed: "), answer


def processor_time_since(before):
    """What programs that have ended used since then, in seconds."""
    after = resource.getrusage(resource.RUSAGE_CHILDREN)
    return after.ru_utime - before.ru_utime + after.ru_stime - before.ru_stime


def a_wait_takes_no_processor_time():
    """It waits for a second, and uses less than a tenth of it."""
    before = resource.getrusage(resource.RUSAGE_CHILDREN)
    with Listening(read_to_end) as server:
        answer = answer_to(f"socket 127.0.0.1:{server.port} 1000 - 2 2")
    lasted(answer, "came 0 right", 10)
    assert (used := processor_time_since(before)) < 0.1, f"{used:.2f} s"


def the_deadline_passes_whatever_comes():
    def keep_sending(client):
        try:
            while True:
                client.sendall(b"a")
                threading.Event().wait(0.1)
        except OSError:
            pass

    with Listening(keep_sending) as server:
        answer = answer_to(f"socket 127.0.0.1:{server.port} 1000 1500 0 1000")
    lasted(answer, "came ", 15)


def a_write_of_which_nothing_is_taken_fails():
    """The other end reads nothing. The system's buffer may grow meanwhile: it takes more once the limit has passed, with
    which the limit begins anew."""
    release = threading.Event()
    with Listening(lambda client: release.wait(SECONDS)) as server:
        answer = answer_to(f"socket 127.0.0.1:{server.port} 1000 - 33554432 1")
        release.set()
    lasted(answer, "came 0 right", 10, more=40)


def a_wait_that_is_interrupted_ends_in_time():
    """It is stopped shortly before the limit, and goes on: that interrupts its wait, which goes on for what is left."""
    with Listening(read_to_end) as server:
        run = subprocess.Popen([LOOPS], stdin=subprocess.PIPE, stdout=subprocess.PIPE)
        run.stdin.write(f"socket 127.0.0.1:{server.port} 1500 - 2 2\n".encode())
        run.stdin.close()
        time.sleep(1.2)
        run.send_signal(signal.SIGSTOP)
        os.waitid(os.P_PID, run.pid, os.WSTOPPED)
        run.send_signal(signal.SIGCONT)
        answer = run.stdout.read().decode().rstrip("\n")
        assert run.wait(SECONDS) == 0
    lasted(answer, "came 0 right", 15)


def a_look_up_counts_to_the_deadline():
    """The deadline begins before the name is looked up, and that takes most of it."""
    with Listening(read_to_end) as server:
        answer = answer_to(f"socket 1000ms,127.0.0.1:{server.port} 5000 1300 2 2")
    lasted(answer, "came 0 right", 13)


def a_look_up_lasts_beyond_the_deadline():
    """It isn't broken off: the deadline is seen behind it, and no address is waited for."""
    with Listening(read_to_end) as server:
        answer = answer_to(f"socket 1500ms,127.0.0.1:{server.port} 5000 500 2 2")
    lasted(answer, "", 15)


class Accepting:
    """A loop that listens, at a port that was free."""

    def __init__(self, *words, host="127.0.0.1"):
        with socket.create_server(("127.0.0.1", 0)) as free:
            self.port = free.getsockname()[1]
        self.run = subprocess.Popen([LOOPS], stdin=subprocess.PIPE, stdout=subprocess.PIPE)
        self.run.stdin.write(f"accept {host}:{self.port} {' '.join(map(str, words))}\n".encode())
        self.run.stdin.close()

    def client(self, host="127.0.0.1"):
        """A client, once it listens."""
        for _ in range(SECONDS * 50):
            try:
                return socket.create_connection((host, self.port), SECONDS)
            except ConnectionRefusedError:
                threading.Event().wait(0.02)
        raise AssertionError("it doesn't listen")

    def answer(self):
        with self.run:
            return self.run.stdout.read().decode().rstrip("\n")


def got(client, count):
    """So many bytes."""
    came = bytearray()
    while len(came) < count:
        piece = client.recv(count - len(came))
        assert piece, came
        came += piece
    return bytes(came)


def counted(count):
    return bytes(at % 251 for at in range(count))


def two_clients_of_one_loop():
    """The second is served while the first one is silent."""
    accepting = Accepting(2, 2, "-", 3, 100, 3)
    with accepting.client() as first, accepting.client() as second:
        assert got(first, 3) == counted(3) and got(second, 3) == counted(3)
        second.sendall(counted(7))
        second.shutdown(socket.SHUT_WR)
        assert second.recv(1) == b""
        first.sendall(counted(5))
        first.shutdown(socket.SHUT_WR)
        assert first.recv(1) == b""
    assert accepting.answer() == "came 7 right; came 5 right; "


def a_third_client_waits_for_a_place():
    accepting = Accepting(1, 3, "-", 1, 100, 1)
    clients = [accepting.client() for _ in range(3)]
    for client in clients:
        with client:
            assert got(client, 1) == counted(1)
            client.shutdown(socket.SHUT_WR)
            assert client.recv(1) == b""
    assert accepting.answer() == "came 0 right; " * 3


def no_client_comes_in_time():
    """It waits for a second, and uses less than a tenth of it."""
    before = resource.getrusage(resource.RUSAGE_CHILDREN)
    answer = Accepting(1, 1, 1000, 1, 100, 1).answer()
    assert answer.startswith("late at 1") and answer.endswith(" tenths"), answer
    assert (used := processor_time_since(before)) < 0.1, f"{used:.2f} s"


def descriptors_that_run_out():
    """A client is taken if one more is left. It is told once, and whoever waits is taken when the other one has ended.
    Meanwhile less than a tenth is used."""
    before = resource.getrusage(resource.RUSAGE_CHILDREN)
    accepting = Accepting(3, 2, "-", 1, 100, 1)
    with accepting.client() as first:
        assert got(first, 1) == counted(1)
        most = 2 + max(int(name) for name in os.listdir(f"/proc/{accepting.run.pid}/fd"))
        resource.prlimit(accepting.run.pid, resource.RLIMIT_NOFILE, (most, most))
        with accepting.client() as second, accepting.client():
            threading.Event().wait(1)
            first.shutdown(socket.SHUT_WR)
            assert first.recv(1) == b""
            assert got(second, 1) == counted(1)
            second.shutdown(socket.SHUT_WR)
            assert second.recv(1) == b""
            answer = accepting.answer()
    assert answer == "failed; came 0 right; failed; came 0 right; ", answer
    assert (used := processor_time_since(before)) < 0.1, f"{used:.2f} s"


def it_listens_at_an_address_of_a_name():
    """localhost has two addresses on most machines, of which the first can't be listened at everywhere."""
    accepting = Accepting(1, 1, "-", 1, 1, 1, host="localhost")
    with accepting.client("localhost") as client:
        assert got(client, 1) == counted(1)
        client.sendall(counted(1))
        assert accepting.answer() == "came 1 right; "


def it_listens_at_another_address_of_a_name():
    """The first one is no address of a machine, but one for documents."""
    accepting = Accepting(1, 1, "-", 1, 1, 1, host="192.0.2.1,127.0.0.1")
    with accepting.client() as client:
        assert got(client, 1) == counted(1)
        client.sendall(counted(1))
        assert accepting.answer() == "came 1 right; "


def an_address_that_is_taken():
    with socket.create_server(("127.0.0.1", 0)) as taken:
        answer = answer_to(f"accept 127.0.0.1:{taken.getsockname()[1]} 1 1 - 1 1 1")
    assert answer.startswith("failed: ") and "in use" in answer, answer


def each_piece_goes_out_at_once():
    """What is written to a client in pieces is not held back until it acknowledges the first: one that delays that, as
    Linux does by at least 40 ms, has all at once. The quickest of ten runs counts, on a machine that is busy."""
    assert min(time_of_the_pieces() for _ in range(10)) < 0.02


def time_of_the_pieces():
    """How long twenty bytes are on their way, each written by itself, between the first and the last one."""
    accepting = Accepting(1, 1, "-", 20, 1, 1)
    with accepting.client() as client:
        client.setsockopt(socket.IPPROTO_TCP, socket.TCP_QUICKACK, 0)
        assert got(client, 1) == counted(1)
        began = time.monotonic()
        assert got(client, 19) == counted(20)[1:]
        taken = time.monotonic() - began
        client.sendall(counted(1))
        assert accepting.answer() == "came 1 right; "
    return taken


TESTS = [
    a_large_exchange_with_an_echo_that_writes_first,
    the_next_address_of_a_name_is_tried,
    each_address_of_a_name_is_tried,
    a_connection_that_is_refused,
    no_such_name,
    a_wait_takes_no_processor_time,
    a_wait_that_is_interrupted_ends_in_time,
    the_deadline_passes_whatever_comes,
    a_look_up_counts_to_the_deadline,
    a_look_up_lasts_beyond_the_deadline,
    a_write_of_which_nothing_is_taken_fails,
    two_clients_of_one_loop,
    a_third_client_waits_for_a_place,
    no_client_comes_in_time,
    descriptors_that_run_out,
    it_listens_at_an_address_of_a_name,
    it_listens_at_another_address_of_a_name,
    an_address_that_is_taken,
    each_piece_goes_out_at_once,
]
