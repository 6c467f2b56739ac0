"""What `wst test --known` and `wst test --junit` write of servers at an address that pass, break a rule, refuse the
request or go away; and JUnit documents as Python's reader of XML reads them."""

import socket
import subprocess
from threading import Thread
from xml.etree import ElementTree

from server import SECONDS, WST, Client, Tested, free_port, start
from target_lines import FORBIDDEN, asked
from test_lines import passes
from wire import CLOSE_BACK, EMPTY_BACK, EMPTY_TEXT, MASKED_CLOSE, RESPONSE

EMPTY_BINARY = b"\x82\x00"
OTHER_CODE = b"\x88\x02\x03\xe9"

# What a server answers to the two turns of the case 1.1.1, by the verdict that is due.
ANSWERS = {
    "PASS": (EMPTY_BACK, CLOSE_BACK),
    "LOOSE OtherCode": (EMPTY_BACK, OTHER_CODE),
    "FAIL Messages": (EMPTY_BINARY, CLOSE_BACK),
}

NAME = "1.1.1 Empty text message"
FIXED = "fixed: write the known verdicts again\n"
STATUS_RULE = "  rule A server accepts a connection with the status 101 (RFC 6455 section 4.1)\n"
BELOW_FAIL = """  due 1 text -
  due 2 close 1000
  got 1 binary -
  end tester 2
  rule An echo sends back each message, in order, with its kind and payload (ours; RFC 6455 sections 5.4 and 5.6 \
define a message); after a violation nothing is sent back, and messages just before it may be missing
"""
BELOW_LOOSE = """  due 1 text -
  due 2 close 1000
  got 1 text -
  got 2 close 1001
  end peer 2
  rule A close frame after a violation has the code for that violation (RFC 6455 section 7.4.1), and one that \
answers a valid close frame typically has its code (section 5.5.1); another code is told also of an endpoint that \
closes first (ours)
"""


def serve(listener, request, verdicts):
    """Serves a connection for each of these verdicts on the case 1.1.1, and then no more."""
    for verdict in verdicts:
        client = Client(listener.accept()[0])
        with client.stream:
            if verdict == "no connection":
                continue
            assert client.get(len(request)) == request
            if verdict == "FAIL Head Status":
                client.send(FORBIDDEN)
                continue
            client.send(RESPONSE)
            for sent, back in zip((EMPTY_TEXT, MASKED_CLOSE), ANSWERS[verdict]):
                assert client.get(len(sent)) == sent
                client.send(back)
    listener.close()


def test(words, verdicts, known=None, host=None, behind=""):
    """The status, the output and the fault output of `wst test` of the case 1.1.1 for each of these verdicts, at a
    server that is due them, and the target that it is: a URL, or this host, wherever the connection is made."""
    with socket.create_server(("127.0.0.1", 0)) as listener:
        listener.settimeout(SECONDS)
        address = f"127.0.0.1:{listener.getsockname()[1]}"
        url = f"ws://{address}/{behind}" if host is None else host
        request = asked(b"/" + behind.encode(), (host or address).encode())
        thread = Thread(target=serve, args=[listener, request, verdicts])
        thread.start()
        words = [*words, "--connect", address, url, *("1.1.1" for _ in verdicts)]
        process = start("test", *words, stdin=subprocess.PIPE)
        output, faults = process.communicate(None if known is None else known.encode(), timeout=SECONDS)
        thread.join()
    return process.returncode, output.decode(), faults.decode(), url


def counts(same=0, new=0, fixed=0, changed=0):
    """The line that tells how many cases stand how beside an earlier run."""
    return f"known: {same} same, {new} new, {fixed} fixed, {changed} changed\n"


def told(known, verdict, line, status, change):
    """Beside this verdict that is known of it, the case has this line, and the run this status and this count."""
    total = f"{int(verdict == 'PASS')} pass, {int('LOOSE' in verdict)} loose, {int('FAIL' in verdict)} fail\n"
    got = test(["--known"], [verdict], f"1.1.1 {known}\n")[:3]
    assert got == (status, f"1.1.1 {line}\n{total}{counts(**{change: 1})}", ""), (known, verdict, got)


def a_fail_that_is_known_comes_again():
    for verdict in ("FAIL Messages", "FAIL Head Status"):
        told(verdict, verdict, verdict, 0, "same")


def a_fail_that_is_not_the_known_one():
    told("PASS", "FAIL Messages", "FAIL Messages (was PASS)", 1, "new")
    told("FAIL End", "FAIL Messages", "FAIL Messages (was FAIL End)", 1, "changed")
    told("FAIL Head Accept", "FAIL Head Status", "FAIL Head Status (was FAIL Head Accept)", 1, "changed")
    told("LOOSE OtherCode", "FAIL Messages", "FAIL Messages (was LOOSE OtherCode)", 1, "new")
    told("FAIL Messages", "LOOSE OtherCode", "LOOSE OtherCode (was FAIL Messages)", 1, "fixed")


def a_loose_beside_others():
    told("LOOSE OtherCode", "LOOSE OtherCode", "LOOSE OtherCode", 0, "same")
    told("LOOSE LateEnd", "LOOSE OtherCode", "LOOSE OtherCode (was LOOSE LateEnd)", 0, "changed")
    told("PASS", "LOOSE OtherCode", "LOOSE OtherCode (was PASS)", 0, "changed")


def what_is_explained_is_known_next():
    """The output of a run with --explain, and of one with --known, is a list for the next."""
    verdicts = ["FAIL Messages", "FAIL Messages"]
    first = test(["--explain"], verdicts)
    assert first[:3] == (1, f"1.1.1 FAIL Messages\n{BELOW_FAIL}" * 2 + "0 pass, 0 loose, 2 fail\n", ""), first
    assert test(["--known", "--explain"], verdicts, first[1])[:2] == (0, first[1] + counts(same=2))
    other = test(["--known"], ["PASS"], first[1])
    assert other[:3] == (1, "1.1.1 PASS (was FAIL Messages)\n1 pass, 0 loose, 0 fail\n" + counts(fixed=1), ""), other
    again = test(["--known"], ["PASS"], other[1])
    assert again[:3] == (0, "1.1.1 PASS\n1 pass, 0 loose, 0 fail\n" + counts(same=1), ""), again


def no_connection_that_is_known():
    refused = "no connection: refused\n"
    for known, words, told_of_it in (
        ("no connection", ["--timeout", "1"], (0, "1.1.1 no connection\n0 pass, 0 loose, 1 fail\n" + counts(same=1))),
        ("PASS", ["--timeout", "1"], (1, "1.1.1 no connection (was PASS)\n0 pass, 0 loose, 1 fail\n" + counts(new=1))),
        ("FAIL End", ["--timeout", "1"], (1, "1.1.1 no connection (was FAIL End)\n0 pass, 0 loose, 1 fail\n" + counts(changed=1))),
        ("no connection", [], (3, "1.1.1 no connection\n")),
    ):
        address = f"127.0.0.1:{free_port()}"
        process = start("test", "--known", *words, address, "1.1.1", stdin=subprocess.PIPE)
        output, faults = process.communicate(f"1.1.1 {known}\n".encode(), timeout=SECONDS)
        tried = "" if words else f"  tried {address}\n"
        told = (process.returncode, output.decode(), faults.decode())
        assert told == (*told_of_it, refused + tried), (known, output, faults)


def a_connection_that_is_dropped_in_the_middle():
    """With --timeout the run goes on behind it, and it is otherwise than what is known."""
    closed = "no connection: closed before the answer\n"
    words = ["--known", "--timeout", "5"]
    dropped = test(words, ["PASS", "no connection", "PASS"], "1.1.1 PASS\n")
    lines = "1.1.1 PASS\n1.1.1 no connection (was PASS)\n1.1.1 PASS\n2 pass, 0 loose, 1 fail\n" + counts(same=2, new=1)
    assert dropped[:3] == (1, lines, closed), dropped
    ended = test(words, ["PASS"] + ["no connection"] * 3, dropped[1])
    lines = "1.1.1 PASS\n" + 3 * "1.1.1 no connection (was PASS)\n"
    assert ended[:3] == (3, lines, 3 * closed), ended


def a_damaged_list_meets_nobody():
    with socket.create_server(("127.0.0.1", 0)) as listener:
        listener.settimeout(0)
        address = f"127.0.0.1:{listener.getsockname()[1]}"
        for words in (["--known"], ["--known", "--junit"]):
            process = start("test", *words, address, "1.1.1", stdin=subprocess.PIPE)
            told = process.communicate(b"1.1.1 PASS\n1.1.1 FAIL\n", timeout=SECONDS)
            assert (process.returncode, *told) == (1, b"", b"line 2: not a verdict\n"), told
        try:
            raise AssertionError(listener.accept())
        except BlockingIOError:
            pass


def element(case):
    """What a reader of JUnit finds of a case: its name, what kind of element is inside, its message and its text."""
    assert case.tag == "testcase" and case.get("classname") == "wst", case
    inside = [(part.tag, part.get("message"), part.text) for part in case]
    for part in case.iter("failure"):
        verdict = part.get("message").split(" (")[0]
        assert part.get("type") == " ".join(verdict.split()[:2]), part.attrib
    return case.get("name"), *inside


def read_document(document, target):
    """The cases of a document about a target, whole and with nothing behind its end."""
    assert document.startswith('<?xml version="1.0" encoding="UTF-8"?>\n'), document
    suites = ElementTree.fromstring(document)
    assert suites.tag == "testsuites" and len(suites) == 1, document
    assert suites[0].tag == "testsuite" and suites[0].get("name") == f"wst {target}", document
    return [element(case) for case in suites[0]]


def a_document_of_each_verdict():
    verdicts = ["PASS", "LOOSE OtherCode", "FAIL Messages", "FAIL Head Status"]
    status, document, faults, url = test(["--junit"], verdicts)
    assert (status, faults) == (1, "1 pass, 1 loose, 2 fail\n"), (status, faults)
    assert read_document(document, url) == [
        (NAME,),
        (NAME, ("system-out", None, f"LOOSE OtherCode\n{BELOW_LOOSE}")),
        (NAME, ("failure", "FAIL Messages", f"\n{BELOW_FAIL}")),
        (NAME, ("failure", "FAIL Head Status", f"\n  status 403\n{STATUS_RULE}")),
    ], document


def a_document_beside_an_earlier_run():
    verdicts = ["PASS", "LOOSE OtherCode", "FAIL Messages"]
    status, document, faults, url = test(["--junit", "--known"], verdicts, "1.1.1 FAIL Messages\n")
    assert (status, faults) == (1, "1 pass, 1 loose, 1 fail\n" + counts(same=1, fixed=2)), (status, faults)
    assert read_document(document, url) == [
        (NAME, ("failure", "PASS (was FAIL Messages)", f"\n{FIXED}")),
        (NAME, ("failure", "LOOSE OtherCode (was FAIL Messages)", f"\n{FIXED}{BELOW_LOOSE}")),
        (NAME, ("skipped", "FAIL Messages", None)),
    ], document
    assert test(["--junit", "--known"], ["FAIL Messages"], "1.1.1 FAIL Messages\n")[0] == 0


def a_target_with_marks_of_xml():
    """A host may have all of them, and the path of a URL two."""
    for host, behind, written in (
        ("a&<b>\"c\"'d'&#60;]]>:9001", "", "a&amp;&lt;b&gt;&quot;c&quot;'d'&amp;#60;]]&gt;:9001"),
        (None, "a?b=c&d='e'&lt;", "a?b=c&amp;d='e'&amp;lt;"),
    ):
        status, document, faults, url = test(["--junit"], ["PASS"], host=host, behind=behind)
        assert (status, faults) == (0, "1 pass, 0 loose, 0 fail\n"), (status, faults)
        assert read_document(document, url) == [(NAME,)], document
        assert f"{written}\">\n" in document, document


def a_document_whose_run_ends_early():
    """At a server that goes away the run ends with the first case, and with three where it is waited in time."""
    closed = "no connection: closed before the answer\n"
    failure = (NAME, ("failure", "no connection", "\n"))
    for words, before, count in (([], ["PASS"], 1), (["--timeout", "5"], ["PASS"], 3), ([], [], 1)):
        verdicts = before + ["no connection"] * count
        status, document, faults, url = test(["--junit", *words], verdicts)
        assert (status, faults) == (3, closed * count), (status, faults)
        assert read_document(document, url) == [(NAME,)] * len(before) + [failure] * count, document


def a_document_beside_an_earlier_run_that_ends_early():
    verdicts = ["PASS", "FAIL Messages"] + ["no connection"] * 3
    status, document, faults, url = test(["--junit", "--known", "--timeout", "5"], verdicts, "1.1.1 FAIL Messages\n")
    assert status == 3, (status, faults)
    missed = (NAME, ("failure", "no connection (was FAIL Messages)", "\n"))
    assert read_document(document, url) == [
        (NAME, ("failure", "PASS (was FAIL Messages)", f"\n{FIXED}")),
        (NAME, ("skipped", "FAIL Messages", None)),
        missed,
        missed,
        missed,
    ], document


def a_document_as_it_comes():
    """Its beginning is written before a case runs, and each element before the next case does."""
    server = Tested("--junit", "1.1.1", "1.1.1")
    element = f'<testcase classname="wst" name="{NAME}"/>'
    assert server.line() == '<?xml version="1.0" encoding="UTF-8"?>'
    assert server.line() == f'<testsuites><testsuite name="wst {server.address}">'
    passes(server)
    assert server.line() == element
    passes(server)
    server.ends(f"{element}\n</testsuite></testsuites>\n", faults=b"2 pass, 0 loose, 0 fail\n")


def a_summary_of_each_verdict():
    """Of the last verdict of a case, behind the total and before the counts; the report of its lines has the same."""
    others = ["LOOSE OtherCode", "PASS", "FAIL Messages"]
    for verdicts, lines in ((["PASS", "PASS"], ""), (others[:2], ""), (others, "FAIL Messages 1: 1.1.1\n")):
        status, output, faults, url = test(["--summary", "--known"], verdicts, "1.1.1 FAIL Messages\n")
        told = "".join(line + "\n" for line in output.splitlines()[len(verdicts) + 1:])
        fails = verdicts.count("FAIL Messages")
        assert (told, faults) == (lines + counts(same=fails, fixed=len(verdicts) - fails), ""), (verdicts, output)
        report = subprocess.run([WST, "report", "--summary"], input=output, capture_output=True, text=True, check=True)
        assert report.stdout.splitlines()[:-1] == lines.splitlines(), (output, report.stdout)


def a_summary_beside_a_document():
    """All but the document goes to the fault output."""
    status, document, faults, url = test(["--junit", "--summary"], ["FAIL Head Status"])
    assert (status, faults) == (1, "0 pass, 0 loose, 1 fail\nFAIL Head Status 1: 1.1.1\n"), (status, faults)
    assert len(read_document(document, url)) == 1, document


def a_document_goes_on_behind_two_misses():
    verdicts = ["no connection", "no connection", "PASS"]
    status, document, faults, url = test(["--junit", "--timeout", "5"], verdicts)
    assert status == 1, (status, faults)
    failure = (NAME, ("failure", "no connection", "\n"))
    assert read_document(document, url) == [failure, failure, (NAME,)], document


def a_document_that_can_not_be_written():
    with open("/dev/full", "wb") as full:
        process = start("test", "--junit", f"127.0.0.1:{free_port()}", "1.1.1", stdout=full)
        assert (process.wait(SECONDS), process.stderr.read()) == (3, b"")


TESTS = [
    a_fail_that_is_known_comes_again,
    a_fail_that_is_not_the_known_one,
    a_loose_beside_others,
    what_is_explained_is_known_next,
    no_connection_that_is_known,
    a_connection_that_is_dropped_in_the_middle,
    a_damaged_list_meets_nobody,
    a_document_of_each_verdict,
    a_document_beside_an_earlier_run,
    a_target_with_marks_of_xml,
    a_document_whose_run_ends_early,
    a_document_beside_an_earlier_run_that_ends_early,
    a_summary_of_each_verdict,
    a_summary_beside_a_document,
    a_document_as_it_comes,
    a_document_goes_on_behind_two_misses,
    a_document_that_can_not_be_written,
]
