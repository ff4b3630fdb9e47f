#!/usr/bin/env python3
"""gateway.py GATEWAY: plays order hosts that misbehave, each in its way, to examples/gateway.c over loopback.

For each: what the gateway writes to be sent is exactly what was asked for, once; the replies are whole; and it uses hardly any processor time.
"""
import json, os, random, socket, struct, subprocess, sys, threading, time

ESC, FS = b"\x1b", b"\x1c"
GATEWAY = sys.argv[1]


def at(row, column):
    return ESC + b"=" + bytes([31 + row, 31 + column])


def form(roast, bags="24"):
    """A form with two open fields, filled, and the question for the open text."""
    return (ESC + b"," + ESC + b")" + at(5, 3) + b"Roast" + at(6, 3) + b"Bags" + ESC + b"("
            + at(5, 12) + b" " * 40 + at(6, 12) + b" " * 4 + ESC + b"&" + at(5, 12) + roast.encode("latin-1") + b"\t" + bags.encode() + at(6, 15) + ESC + b"5")


# rows 1 to 4 are protected, one FS each; then FS, the field, FS; FS, the field, CR
def reply(roast, bags="24"):
    return b"\x1f".join([FS] * 4 + [FS + roast.encode().ljust(40) + FS, FS + bags.encode().ljust(4) + b"\r"])


def sent(roast, bags="24"):
    text = roast.ljust(40) + bags
    return {"fields": [roast, bags], "text": text, "units": sum(2 if c in "^{}\\[~]|" else 1 for c in text), "parts": 1, "refused": 0}


FULL = ESC + b"'" + at(24, 80) + ESC + b"7"  # a reply of 1,944 bytes


class Host:
    """A listening host and a gateway that connects to it."""

    def __init__(self, *options, listening=True):
        self.listener = socket.socket()
        self.listener.setsockopt(socket.SOL_SOCKET, socket.SO_REUSEADDR, 1)
        self.listener.setsockopt(socket.SOL_SOCKET, socket.SO_RCVBUF, 4096)
        self.listener.bind(("127.0.0.1", 0))
        if listening:
            self.listener.listen()
        port = str(self.listener.getsockname()[1])
        self.gateway = subprocess.Popen([GATEWAY, "-w", "50", *options, "127.0.0.1", port], stdout=subprocess.PIPE, stderr=subprocess.PIPE)
        self.written, self.said = [], []
        for lines, stream in ((self.written, self.gateway.stdout), (self.said, self.gateway.stderr)):
            threading.Thread(target=lambda l, f: l.extend(iter(f.readline, b"")), args=(lines, stream), daemon=True).start()

    def line(self):
        self.listener.settimeout(10)
        line = self.listener.accept()[0]
        line.settimeout(10)
        return line

    def end(self, *written, held=()):
        """Waits until the gateway has written that many alerts and said why it held others, stops it, and compares; the processor time it used."""
        reasons = lambda: [l.split(b'"held":"')[1].split(b'"')[0].decode() for l in self.said if b" held " in l]
        until(lambda: len(self.written) >= len(written) and len(reasons()) >= len(held))
        time.sleep(0.2)  # no more than these
        self.gateway.terminate()
        used = os.wait4(self.gateway.pid, 0)[2]
        self.gateway.returncode = 0
        self.listener.close()
        expect("written", [json.loads(l) for l in self.written], list(written))
        if held:
            expect("held", reasons(), list(held))
        return used.ru_utime + used.ru_stime


def until(done, seconds=10):
    while not done() and seconds > 0:
        time.sleep(0.02)
        seconds -= 0.02


def read(line, count):
    got = b""
    while len(got) < count:
        part = line.recv(65536)
        if not part:
            break
        got += part
    return got


def cut(line):
    """The line breaks: a reset, with no word."""
    line.setsockopt(socket.SOL_SOCKET, socket.SO_LINGER, struct.pack("ii", 1, 0))
    line.close()


def expect(name, got, wanted):
    assert got == wanted, f"{name}: {got!r}, not {wanted!r}"


def well():
    host, odd = Host(), 'Sidamo "A" \\ 1'
    line = host.line()
    line.sendall(form("Guji"))
    expect("reply", read(line, len(reply("Guji"))), reply("Guji"))
    line.sendall(b"\x05" + form(odd))
    expect("reply", read(line, 1 + len(reply(odd))), b"\x06" + reply(odd))
    line.close()
    return host.end(sent("Guji"), sent(odd))


def slow():
    host = Host()
    line = host.line()
    for byte in form("Guji"):
        line.sendall(bytes([byte]))
        time.sleep(0.003)
    expect("reply", read(line, len(reply("Guji"))), reply("Guji"))
    return host.end(sent("Guji"))


def silent():
    host = Host()
    line = host.line()
    time.sleep(1)
    line.sendall(form("Guji")[:-1])
    time.sleep(1)
    line.sendall(form("Guji")[-1:])
    expect("reply", read(line, len(reply("Guji"))), reply("Guji"))
    return host.end(sent("Guji"))


def cut_in_a_sequence():
    """After ESC, inside ESC = and inside a field: what comes next begins anew, so the 5 is no question."""
    host, whole = Host(), form("Guji")
    for stop in (whole[:-1], whole[:3], whole[: whole.index(b"Guji") + 2], ESC):
        line = host.line()
        line.sendall(stop)
        time.sleep(0.1)
        line.close()
    line = host.line()
    line.sendall(b"5" + whole)
    expect("reply", read(line, len(reply("Guji"))), reply("Guji"))
    return host.end(sent("Guji"))


def rubbish():
    """A byte is refused first, and no form begins in the noise, so nothing in it is sent."""
    dice = random.Random(22)
    noise = bytes([0xE9] + [dice.randrange(256) for _ in range(50000)])
    for clear in b"*+,":
        noise = noise.replace(ESC + bytes([clear]), ESC + b"E")
    host = Host()
    line = host.line()
    threading.Thread(target=lambda: read(line, 1 << 30), daemon=True).start()
    line.sendall(noise + ESC + b"5" + b"\x00\r\x7f" * 20 + form("Guji") + form("Caf\xe9") + form("Sidamo"))
    used = host.end(sent("Guji"), sent("Sidamo"))
    assert b'"refusals":[{"byte":233,"answer":1,"row":5,"column":15}]' in b"".join(host.said), host.said[-3:]
    return used


def held_until_drawn_anew():
    host = Host()
    line = host.line()
    filled_again = b"\x1a" + at(5, 12) + b"Harrar\t24" + at(6, 15) + ESC + b"5"
    line.sendall(form("Caf\xe9") + filled_again + form("back`quote") + form("", "") + form("Guji") + filled_again)
    refused = "bytes were refused since the form was drawn"
    return host.end(sent("Guji"), sent("Harrar"), held=(refused, refused, "a byte is outside the alphabet", "the text is empty"))


def drawn_anew():
    """A form begins with ESC *, ESC + or ESC , also where the line cuts it in two; not with these bytes in a text, an argument or a message."""
    host, fill = Host(), at(1, 1) + b"Guji" + ESC + b"5"
    line = host.line()
    others = (b"*+,", ESC + b"=,+", ESC + b"F" + ESC + b",\r", ESC + ESC + b",", ESC + b"G,")
    line.sendall(b"".join(b"\xe9" + other + fill for other in others))
    for clear in (b"*", b"+", b",", b"\xe9,"):
        line.sendall(b"\xe9" + ESC)
        time.sleep(0.1)
        line.sendall(clear + fill)
    guji = {"fields": ["Guji"], "text": "Guji", "units": 4, "parts": 1, "refused": 0}
    return host.end(*[guji] * 4, held=["bytes were refused since the form was drawn"] * len(others))


def pieces():
    """One piece alone is sent; where a piece is not there, nothing."""
    host = Host("-f", "10", "-l", "10")
    line = host.line()
    line.sendall(form("Guji"))
    host.end({"fields": ["Guji"], "text": "Guji", "units": 4, "parts": 1, "refused": 0})
    host = Host("-f", "2", "-l", "99")
    line = host.line()
    line.sendall(form("Guji"))
    return host.end(held=("the last piece is beyond those of the reply",))


def reads_no_replies():
    """Much more is asked than fits into any buffer; nothing is read for a while; then all of it is there."""
    host, turns = Host(), 3000
    line = host.line()
    threading.Thread(target=line.sendall, args=(form("Guji") + FULL * turns + form("Sidamo"),), daemon=True).start()
    until(lambda: host.written)
    time.sleep(1.5)
    expect("written so far", len(host.written), 1)
    before = used_by(host.gateway.pid)
    time.sleep(0.5)
    assert used_by(host.gateway.pid) - before < 0.05, "it is busy while it waits"
    wanted = len(reply("Guji")) + 1944 * turns + len(reply("Sidamo"))
    got = read(line, wanted)
    expect("replies", len(got), wanted)
    expect("last reply", got[-len(reply("Sidamo")):], reply("Sidamo"))
    host.end(sent("Guji"), sent("Sidamo"))
    return 0  # megabytes of replies are work


def used_by(pid):
    """Processor time so far."""
    fields = open(f"/proc/{pid}/stat").read().split()
    return (int(fields[13]) + int(fields[14])) / os.sysconf("SC_CLK_TCK")


def never_reads_and_breaks():
    """Two alerts, no reply read, the line breaks; both are asked for again, and others."""
    host = Host()
    for again in range(3):
        line = host.line()
        line.sendall(form("Guji") + form("Sidamo"))
        time.sleep(0.3)
        cut(line)
    line = host.line()
    line.sendall(form("Sidamo") + form("Harrar") + form("Sidamo"))
    return host.end(sent("Guji"), sent("Sidamo"), sent("Harrar"), sent("Sidamo"))


def stalled_and_gone():
    """The host reads nothing, asks once more behind a full line, and is gone: what it asked is not lost."""
    host = Host()
    line = host.line()
    line.sendall(form("Guji") + FULL * 3000 + form("Sidamo"))
    until(lambda: host.written)
    time.sleep(0.5)
    cut(line)
    return host.end(sent("Guji"), sent("Sidamo"))


def ends_and_comes_back():
    """A line that ends in order is no reason to think that an alert is the same."""
    host = Host()
    for turn in range(2):
        line = host.line()
        line.sendall(form("Guji"))
        read(line, len(reply("Guji")))
        line.close()
    return host.end(sent("Guji"), sent("Guji"))


def ends_its_side():
    host = Host()
    line = host.line()
    line.sendall(form("Guji"))
    line.shutdown(socket.SHUT_WR)
    expect("reply", read(line, len(reply("Guji")) + 1), reply("Guji"))
    line.close()
    used = host.end(sent("Guji"))
    assert b"gateway: the line ended\n" in host.said, host.said
    return used


def not_there_at_first():
    host = Host(listening=False)
    time.sleep(1.5)
    host.listener.listen()
    line = host.line()
    line.sendall(form("Guji"))
    expect("reply", read(line, len(reply("Guji"))), reply("Guji"))
    used = host.end(sent("Guji"))
    tries = sum(b"refused" in said for said in host.said)
    assert 1 <= tries <= 6, f"{tries} tries in 1.5 seconds"
    return used


failed = 0
for host in (well, slow, silent, cut_in_a_sequence, rubbish, held_until_drawn_anew, drawn_anew, pieces, reads_no_replies, never_reads_and_breaks, stalled_and_gone,
             ends_and_comes_back, ends_its_side, not_there_at_first):
    try:
        used = host()
        assert used < 0.3, f"{used:.2f} seconds of processor time"
        print(f"{host.__name__}: as it should")
    except Exception as fault:
        failed = 1
        print(f"{host.__name__}: FAILED: {type(fault).__name__} {fault}")
sys.exit(failed)
