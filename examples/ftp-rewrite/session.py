#!/usr/bin/env python3
"""The programs of the FTP session that is recorded: a server, a client, and a recorder of a router's two links. Run by `record`.

usage: session.py serve ADDRESS
       session.py fetch ADDRESS SERVER LOSE COMMAND..
       session.py watch FOLDER NAME INSIDE OUTSIDE

A COMMAND is pasv or epsv, or port or eprt with a port behind `=`, after each of which a file is fetched. With `port+=N` the command
and RETR leave in one segment. With `port-=N` the words of LOSE are run before it, and behind it with -D in place of -I, so that the
segment is lost on its way and sent again. With `old` the first segment of data is sent once more, by a raw socket.
"""
import os
import re
import select
import signal
import socket
import struct
import subprocess
import sys
import threading
import time

FILE = b"".join(b"%d\n" % number for number in range(1, 60))


# The server


def lines_of(call):
    kept = b""
    while piece := call.recv(4096):
        kept += piece
        while b"\n" in kept:
            line, _, kept = kept.partition(b"\n")
            yield line.rstrip(b"\r").decode()


def numbers_text(address, port):
    return ",".join([*address.split("."), str(port // 256), str(port % 256)])


class Talk:
    """One connection of the server's."""

    def __init__(self, call):
        self.call, self.own, self.target, self.listener = call, call.getsockname()[0], None, None

    def say(self, text):
        self.call.sendall(text.encode() + b"\r\n")

    def run(self):
        self.say("220 ready")
        for line in lines_of(self.call):
            word, _, rest = line.partition(" ")
            getattr(self, f"do_{word.lower()}", self.unknown)(rest)
            if word == "QUIT":
                break
        self.call.close()

    def unknown(self, _):
        self.say("502 no such command")

    def do_user(self, _):
        self.say("331 a password, please")

    def do_pass(self, _):
        self.say("230 logged in")

    def do_quit(self, _):
        self.say("221 bye")

    def do_port(self, rest):
        numbers = rest.split(",")
        self.target = ".".join(numbers[:4]), int(numbers[4]) * 256 + int(numbers[5])
        self.say("200 PORT is done")

    def do_eprt(self, rest):
        _, _, address, port, _ = rest.split("|")
        self.target = address, int(port)
        self.say("200 EPRT is done")

    def listen(self):
        self.listener = socket.create_server((self.own, 0))
        return self.listener.getsockname()[1]

    def do_pasv(self, _):
        self.say(f"227 Entering Passive Mode ({numbers_text(self.own, self.listen())}).")

    def do_epsv(self, _):
        self.say(f"229 Entering Extended Passive Mode (|||{self.listen()}|)")

    def do_retr(self, _):
        self.say("150 here it comes")
        if self.listener:
            data, _ = self.listener.accept()
            self.listener.close()
            self.listener = None
        else:
            data = socket.socket()
            data.setsockopt(socket.SOL_SOCKET, socket.SO_REUSEADDR, 1)
            data.bind((self.own, 20))
            data.settimeout(5)
            data.connect(self.target)
        data.sendall(FILE)
        data.close()
        self.say("226 that was all")


def serve(address):
    with socket.create_server((address, 21)) as server:
        while True:
            threading.Thread(target=Talk(server.accept()[0]).run, daemon=True).start()


# The client


def checksum(data):
    data += b"\0" * (len(data) % 2)
    total = sum(struct.unpack(f">{len(data) // 2}H", data))
    while total >> 16:
        total = (total & 0xFFFF) + (total >> 16)
    return total ^ 0xFFFF


class Client:
    def __init__(self, address, server, lose):
        self.address, self.lose = address, lose
        self.call = socket.create_connection((server, 21), 20, (address, 0))
        self.call.setsockopt(socket.IPPROTO_TCP, socket.TCP_NODELAY, 1)
        self.lines = lines_of(self.call)
        self.seen = socket.socket(socket.AF_PACKET, socket.SOCK_RAW, socket.htons(3))
        self.seen.settimeout(5)
        self.answer("220")

    def answer(self, code):
        line = next(self.lines)
        if not line.startswith(code):
            raise SystemExit(f"{code} was wanted, and there is {line}")
        return line

    def ask(self, text, code):
        self.call.sendall(text.encode() + b"\r\n")
        time.sleep(0.06)
        return self.answer(code)

    def active(self, text, port, how):
        with socket.create_server((self.address, port)) as listener:
            listener.settimeout(10)
            if how == "+":
                self.call.sendall(text.encode() + b"\r\nRETR numbers\r\n")
                self.answer("200")
            elif how == "-":
                subprocess.run(self.lose, check=True)
                self.call.sendall(text.encode() + b"\r\n")
                time.sleep(0.1)
                subprocess.run([{"-I": "-D"}.get(word, word) for word in self.lose], check=True)
                self.answer("200")
            else:
                self.ask(text, "200")
            if how != "+":
                self.call.sendall(b"RETR numbers\r\n")
            self.answer("150")
            self.take(listener.accept()[0])

    def passive(self, port):
        self.call.sendall(b"RETR numbers\r\n")
        self.answer("150")
        self.take(socket.create_connection((self.call.getpeername()[0], port), 10))

    def take(self, data):
        received = b""
        while piece := data.recv(4096):
            received += piece
        data.close()
        if received != FILE:
            raise SystemExit("another file was fetched")
        self.answer("226")

    def old(self):
        """Sends the first segment with data once more: an old one, which a slow path may bring late."""
        own = self.call.getsockname()[1]
        while True:
            frame, sender = self.seen.recvfrom(65536)
            if frame[12:14] == b"\x08\x00" and frame[23] == 6 and struct.unpack_from(">H", frame, 34)[0] == own and len(frame) > 14 + 52 and frame[47] & 8:
                break
        body = frame[34:50] + b"\0\0" + frame[52:]
        check = checksum(frame[26:34] + struct.pack(">HH", 6, len(body)) + body)
        self.seen.sendto(frame[:34] + body[:16] + struct.pack(">H", check) + body[18:], sender[:2])
        time.sleep(0.1)

    def do(self, command):
        if command == "old":
            return self.old()
        word, how, port = re.fullmatch(r"(port|eprt|pasv|epsv)([+-]?)(?:=(\d+))?", command).groups()
        if word == "port":
            self.active(f"PORT {numbers_text(self.address, int(port))}", int(port), how)
        elif word == "eprt":
            self.active(f"EPRT |1|{self.address}|{port}|", int(port), how)
        elif word == "pasv":
            numbers = re.search(r"\((.*)\)", self.ask("PASV", "227"))[1].split(",")
            self.passive(int(numbers[4]) * 256 + int(numbers[5]))
        elif word == "epsv":
            self.passive(int(re.search(r"\|\|\|(\d+)\|", self.ask("EPSV", "229"))[1]))


def fetch(address, server, lose, commands):
    client = Client(address, server, lose.split())
    client.ask("USER anonymous", "331")
    client.ask("PASS none", "230")
    for command in commands:
        client.do(command)
        time.sleep(0.06)
    client.ask("QUIT", "221")
    client.call.close()


# The recorder


SO_TIMESTAMPNS = 35
OUTGOING = 4


def write(name, packets):
    with open(name, "wb") as file:
        file.write(struct.pack("<IHHIIII", 0xA1B2C3D4, 2, 4, 0, 0, 65535, 1))
        for moment, data in packets:
            micros = moment // 1000
            file.write(struct.pack("<IIII", micros // 1_000_000, micros % 1_000_000, len(data), len(data)) + data)


def watch(folder, name, links):
    """What IPv4 packets of TCP come and go at two links, until this process is ended; and of both those that come."""
    sockets = {}
    for place, link in enumerate(links):
        one = socket.socket(socket.AF_PACKET, socket.SOCK_RAW, socket.htons(3))
        one.setsockopt(socket.SOL_SOCKET, SO_TIMESTAMPNS, 1)
        one.bind((link, 0))
        sockets[one] = place
    found, ended = [], []
    signal.signal(signal.SIGTERM, lambda *_: ended.append(1))
    while not ended:
        for one in select.select(list(sockets), [], [], 0.1)[0]:
            data, extra, _, sender = one.recvmsg(65536, 64)
            seconds, nanos = struct.unpack("qq", extra[0][2][:16])
            if data[12:14] == b"\x08\x00" and data[23] == 6:
                found.append((seconds * 1_000_000_000 + nanos, sockets[one], sender[2] == OUTGOING, data))
    found.sort(key=lambda it: it[0])
    for place, side in enumerate(("in", "out")):
        write(os.path.join(folder, f"{name}.{side}.pcap"), [(it[0], it[3]) for it in found if it[1] == place])
    write(os.path.join(folder, f"{name}.pcap"), [(it[0], it[3]) for it in found if not it[2]])


def main(words):
    if words[:1] == ["serve"]:
        serve(words[1])
    elif words[:1] == ["fetch"]:
        fetch(words[1], words[2], words[3], words[4:])
    elif words[:1] == ["watch"]:
        watch(words[1], words[2], words[3:5])
    else:
        sys.exit(__doc__)


main(sys.argv[1:])
