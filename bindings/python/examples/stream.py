#!/usr/bin/env python3
"""Sends an Annex B stream as RTP packets over UDP on 127.0.0.1, loses some of them on the way, asks for
these again, and writes the access units that come.

    python3 examples/stream.py H264 IN.h264 OUT.h264 --lost 50
"""

import argparse
import random
import socket
from typing import Iterator, List

from h26x import (
    AccessUnit,
    AccessUnitConfig,
    Codec,
    GenericNack,
    NackTimes,
    Packetizer,
    RtpPayloadTypes,
    RtpReceiver,
    RtpSender,
    RtpStream,
    rtcp_packets,
    units,
)

#: Ticks are milliseconds.
EACH_FRAME, MAX_WAIT = 33, 1000


def access_units(codec: Codec, data: bytes) -> Iterator[bytes]:
    """Parts of a stream that end with a picture's slice. An encoder gives whole access units."""
    part: List[bytes] = []
    for unit in units(codec, data):
        part.append(unit)
        if is_slice(codec, unit):
            yield b"".join(b"\0\0\0\1" + one for one in part)
            part = []


def is_slice(codec: Codec, unit: bytes) -> bool:
    """Whether a unit holds a slice."""
    if codec is Codec.H264:
        return 1 <= unit[0] & 31 <= 5
    return unit[0] >> 1 & 63 < 32 if codec is Codec.H265 else unit[1] >> 3 < 12


class Sender:
    """Sends access units, of whose packets some are lost, and those again that are asked for."""

    def __init__(self, codec: Codec, to: socket.socket, lost: int) -> None:
        media, rtx = RtpStream(1, 96, sequence=65000), RtpStream(2, 97, sequence=7)
        self.rtp, self.packetizer = RtpSender(media, rtx, history=4_000_000), Packetizer(codec)
        self.to, self.lost, self.missed, self.draw = to, lost, 0, random.Random(1)

    def send(self, frame: bytes, timestamp: int, lost: int) -> None:
        """Sends a frame, of which so many packets of 1000 are lost."""
        packets = self.packetizer.packetize_units(1188, frame)
        for datagram in self.rtp.send(timestamp, packets):
            self.goes(datagram, lost)

    def goes(self, datagram: bytes, lost: int) -> None:
        """Sends a datagram, unless it is lost."""
        if self.draw.randrange(1000) < lost:
            self.missed += 1
        else:
            self.to.send(datagram)

    def answer(self) -> None:
        """Sends again what is asked for."""
        for datagram in waiting(self.to):
            for packet in rtcp_packets(datagram):
                nack = GenericNack.read(packet)
                for number in nack.numbers if nack else ():
                    again = self.rtp.resend(number)
                    if again is not None:
                        self.goes(again, self.lost)


def receive(receiver: RtpReceiver, by: socket.socket, now: int) -> bytes:
    """The access units that have ended. Asks for what is missing."""
    ended: List[AccessUnit] = []
    for datagram in waiting(by):
        receiver.push(now, 90 * now, datagram)
        ended += receiver.units(now)
    missing = receiver.nacks(now, NackTimes(first=0, again=EACH_FRAME, most=20))
    if missing:
        packet, _ = GenericNack(3, receiver.sources().media or 0, missing).write(1200)
        by.send(packet)
    for unit in ended:
        if unit.missing:
            print(f"{unit.missing} missing before packet {unit.last}")
    return b"".join(unit.data for unit in ended)


def waiting(there: socket.socket) -> Iterator[bytes]:
    """The datagrams that wait."""
    while True:
        try:
            yield there.recv(65536)
        except BlockingIOError:
            return


def connected() -> List[socket.socket]:
    """Two sockets that send to each other."""
    both = [socket.socket(socket.AF_INET, socket.SOCK_DGRAM) for _ in range(2)]
    for one in both:
        one.bind(("127.0.0.1", 0))
        one.setblocking(False)
    for one, other in zip(both, both[::-1]):
        one.connect(other.getsockname())
    return both


def main() -> None:
    """Sends each access unit, and receives it before the next."""
    arguments = argparse.ArgumentParser(description=__doc__.split("\n\n")[0])
    arguments.add_argument("codec", choices=[codec.name for codec in Codec])
    arguments.add_argument("input")
    arguments.add_argument("output")
    arguments.add_argument("--lost", type=int, default=0, help="how many packets of 1000 are lost")
    given = arguments.parse_args()
    codec, (here, there) = Codec[given.codec], connected()
    sender, config = Sender(codec, here, given.lost), AccessUnitConfig(max_wait=MAX_WAIT)
    receiver = RtpReceiver(codec, RtpPayloadTypes(96, rtx=97), config)
    with open(given.input, "rb") as source, open(given.output, "wb") as back:
        frames, now = list(access_units(codec, source.read())), 0
        for n in range(len(frames) + MAX_WAIT // EACH_FRAME):
            if n < len(frames):
                # A stream's first packet tells where it begins, and its last one that others are missing.
                sender.send(frames[n], n * 3000, given.lost if 0 < n < len(frames) - 1 else 0)
            back.write(receive(receiver, there, now))
            sender.answer()
            now += EACH_FRAME
        receiver.finish()
        back.write(b"".join(unit.data for unit in receiver.units(now)))
    sent, again = sender.rtp.sent(), sender.rtp.resent()
    print(f"{sent.packets} packets, {sender.missed} lost, {again.packets} sent again")


if __name__ == "__main__":
    main()
