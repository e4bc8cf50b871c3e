"""`tools/decode`."""

import itertools

from mesh_front.messages import METHODS, decode_each, message_in
from mesh_tests.support import EXAMPLES, Case, replay


def field(number: int, *parts: bytes) -> bytes:
    """A field with a message or a string, short enough for a length of one byte."""
    value = b"".join(parts)
    return bytes([number << 3 | 2, len(value)]) + value


def frame(message: bytes, number: int = 1) -> str:
    """The line of a frame."""
    return f"frame {number} {(bytes([0]) + len(message).to_bytes(4, 'big') + message).hex()}\n"


ADDRESS = field(1, b"\x0d\x03\x02\x01\x0a") + b"\x10\x50"  # 10.1.2.3:80
ADD = field(1, field(1, field(1, ADDRESS), b"\x18\x90\x4e"))
REMOVE = field(2, field(1, ADDRESS))
NO_ENDPOINTS = field(3, b"\x08\x01")
PROFILE = field(5, b"web.app.svc.cluster.local")
SERVER = b"\x08\x01\x10\x01"
AUTHZ = b"\x08\x02" + field(2, b"pa") + field(4, field(1))
WHOLE = field(1, SERVER)
PUT = field(2, field(1, AUTHZ))
GONE = field(3, field(1, b"\x08\x02" + field(2, b"pa")))
ABSENT = field(1)
FORWARD = field(3, field(1, field(1, ADDRESS), b"\x18\x90\x4e"))
SERVICE = field(2, field(1, b"app"), field(2, b"web"), b"\x18\x50")


class Decode(Case):
    """The method of a frame, and what is no message of it."""

    def test_each_message_fits_its_method_alone(self):
        """The shortest messages of each method, and all that the examples give."""
        expected = {"Get": [ADD, REMOVE, NO_ENDPOINTS, field(3)], "GetProfile": [PROFILE, b"\x20\x01"], "WatchPort": [SERVER]}
        expected["WatchPort2"] = [WHOLE, field(1, SERVER + field(4, AUTHZ)), PUT, GONE]
        expected["Watch"] = [FORWARD, SERVICE]
        for method, messages in expected.items():
            for message, other in itertools.product(messages, METHODS):
                self.assertEqual(other == method, decode_each(other, [message]) != [None], (message, other))
        for name in ("changes", "profile", "policy", "recorded", "configured"):
            frames = replay((EXAMPLES / f"{name}.jsonl").read_bytes()).decode()
            self.assertEqual(0, self.decode(frames).status, name)

    def test_the_message_is_shown(self):
        """The address stands behind its number, for each version of IP."""
        self.require(self.decode(frame(REMOVE)), 0, """
            frame 1
              remove {
                addrs {
                  ip {
                    ipv4: 167838211  # 10.1.2.3
                  }
                  port: 80
                }
              }
        """)
        first = b"\x09" + bytes(7) + b"\xfd" + b"\x11\x05" + bytes(7)  # fd00::5
        self.assertIn("ipv6 {  # fd00::5\n", self.decode(frame(field(2, field(1, field(1, field(2, first)))))).output)

    def test_an_empty_message(self):
        """It may answer two methods. The words, the feed, or another frame of the id decide."""
        self.require(self.decode(frame(b"")), 3, """
            frame 1
              more than one method fits: say 1=GetProfile or 1=WatchPort
        """)
        self.require(self.decode(frame(b""), "1=WatchPort"), 0, "frame 1\n")
        feed = b'{"control":"subscribe","id":1,"query":{"method":"GetProfile","path":"10.9.9.9:80"}}\n'
        self.require(self.decode(frame(b""), "--feed", self.file("feed", feed)), 0, "frame 1\n")
        self.require(self.decode(frame(b"") + frame(SERVER)), 0, """
            frame 1
            frame 1
              protocol: UNKNOWN
              policy: ALL_UNAUTHENTICATED
        """)
        self.assertEqual(3, self.decode(frame(b"") + frame(SERVER, 2)).status)

    def test_an_absent_view(self):
        """It may answer Watch or WatchPort2."""
        self.require(self.decode(frame(ABSENT)), 3, """
            frame 1
              more than one method fits: say 1=WatchPort2 or 1=Watch
        """)
        self.require(self.decode(frame(ABSENT), "1=Watch"), 0, """
            frame 1
              absent {
              }
        """)
        self.require(self.decode(frame(ABSENT) + frame(GONE)), 0, """
            frame 1
              whole {
              }
            frame 1
              gone {
                keys {
                  kind: AUTHORIZATION_POLICY
                  name: "pa"
                }
              }
        """)

    def test_another_method_than_is_said(self):
        """The words decide, and the bytes are refused."""
        self.require(self.decode(frame(SERVER), "1=Get"), 1, """
            frame 1
              protoc finds no message of the method
        """)

    def test_what_protoc_would_accept(self):
        """A field that is not known, one that comes twice, a number in more bytes than it needs, and one that is 0."""
        for message in (ADD + b"\x20\x01", NO_ENDPOINTS + NO_ENDPOINTS, b"\x08\x81\x00\x10\x01", b"\x08\x01\x10\x00"):
            self.assertEqual(1, self.decode(frame(message)).status, message)

    def test_what_is_not_a_frame(self):
        """Bytes behind the message, a first byte other than 0, and no hex."""
        for digits in ("000000000008", "0100000000", "0", "xy"):
            self.require(self.decode(f"view 1 {digits}\n"), 1, """
                view 1
                  not one frame
            """)

    def test_other_lines(self):
        """They are shown as they are."""
        lines = "refused 2 NotJson\nverdict 3 denied default deny\nframe 1\n"
        self.require(self.decode(lines), 0, lines)

    def test_many_frames(self):
        """Of frames that are decoded in one run the wrong ones are named, wherever they are."""
        texts = [frame(REMOVE) for _ in range(9)]
        texts[0] = texts[4] = frame(b"\x20\x01\x20\x01")
        shown = self.decode("".join(texts)).output.split("frame 1\n")[1:]
        self.assertEqual([0, 4], [place for place, rows in enumerate(shown) if rows == "  protoc finds no message of the method\n"])
        self.assertIsNone(message_in("00"))

    def test_wrong_words(self):
        """A method that is none, and a feed that is not there."""
        self.assertEqual(2, self.decode("", "1=Post").status)
        self.require(self.decode("", "--feed", self.room / "none"), 2, "", f"decode: cannot read {self.room}/none: No such file or directory\n")
