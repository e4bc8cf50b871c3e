"""`tools/subscribe`, with a server that sends what the tests say."""

import socket

from mesh_tests.fake_server import FakeServer, Method
from mesh_tests.support import Case
from mesh_tests.test_decode import ADD, NO_ENDPOINTS, PROFILE, REMOVE, SERVER, field

DESTINATION = b"/io.linkerd.proxy.destination.Destination"


def frame(message: bytes) -> bytes:
    """The frame of a message."""
    return b"\0" + len(message).to_bytes(4, "big") + message


class Subscribe(Case):
    """What is asked, what is shown, and how it ends."""

    def subscribe(self, method: Method, *words):
        """Subscribes to a server that handles the link so."""
        with FakeServer(method) as server:
            try:
                run = self.run_tool("subscribe", server.address, *words)
            finally:
                method.is_left.set()
        return run, server.address

    def test_messages_are_shown(self):
        """As they come, whatever the pieces, until there are as many as the words say."""
        data = frame(NO_ENDPOINTS) + frame(REMOVE) + frame(ADD)
        run, _ = self.subscribe(Method(data[:3], data[3:9], data[9:], stays=10), "Get", "web.app:80", "--count", 2)
        self.require(run, 0, """
            message 1
              no_endpoints {
                exists: true
              }
            message 2
              remove {
                addrs {
                  ip {
                    ipv4: 167838211  # 10.1.2.3
                  }
                  port: 80
                }
              }
        """)

    def test_lines(self):
        """As replay writes them, an empty message too; the server then closes the link."""
        run, address = self.subscribe(Method(frame(b"") + frame(SERVER)), "WatchPort", "app/web-1:8080", "--lines")
        self.require(run, 9, "frame 1 0000000000\nframe 1 000000000408011001\n", f"subscribe: {address} closed the link after 2 messages\n")

    def test_requests(self):
        """Each method has its path and its message; the port is 80 unless it is given."""
        authority = b"web.app.svc.cluster.local:80"
        cases = {
            ("Get", "web.app"): (DESTINATION + b"/Get", field(2, authority)),
            ("GetProfile", "web.app", "--token", '{"ns":"ä"}'): (DESTINATION + b"/GetProfile", field(2, authority) + field(3, '{"ns":"ä"}'.encode())),
            ("GetProfile", "10.96.0.10"): (DESTINATION + b"/GetProfile", field(2, b"10.96.0.10:80")),
            ("Watch", "[fd00::5]:8080"): (b"/io.linkerd.proxy.outbound.OutboundPolicies/Watch", field(3, b"[fd00::5]:8080")),
            ("Watch", "web.app", "--cluster-domain", "k8s"): (b"/io.linkerd.proxy.outbound.OutboundPolicies/Watch", field(3, b"web.app.svc.k8s:80")),
            ("WatchPort2", "app/web-1:8080"): (b"/io.linkerd.proxy.inbound.InboundServerPolicies/WatchPort2", field(1, b"app:web-1") + b"\x10\x90\x3f"),
            ("WatchPort", "app/web-1:8080"): (b"/io.linkerd.proxy.inbound.InboundServerPolicies/WatchPort", field(1, b"app:web-1") + b"\x10\x90\x3f"),
        }
        for words, (path, message) in cases.items():
            method = Method(stays=10)
            run, _ = self.subscribe(method, *words, "--seconds", 0.3)
            self.require(run, 0)
            self.assertEqual((path + b"\n", frame(message)), (method.path, method.request), words)

    def test_a_link_that_is_closed(self):
        """Before a message came."""
        run, address = self.subscribe(Method(), "GetProfile", "web.app")
        self.require(run, 9, "", f"subscribe: {address} closed the link and sent no message\n")

    def test_what_is_no_message(self):
        """A first byte other than 0, and a message of another method."""
        run, _ = self.subscribe(Method(b"HTTP/1.1 400\r\n", stays=10), "Get", "web.app")
        self.require(run, 6, "", "subscribe: the server sent what is no frame: 485454502f312e31203430300d0a\n")
        run, _ = self.subscribe(Method(frame(PROFILE), stays=10), "Get", "web.app")
        self.assertEqual((6, ""), (run.status, run.output))
        self.assertIn("subscribe: the message 1 is none that answers Get: ", run.error_output)

    def test_wrong_words(self):
        """A target that is none of the method, and a method that is none."""
        run = self.run_tool("subscribe", "127.0.0.1:1", "WatchPort", "web.app:80")
        self.require(run, 2, "", "subscribe: 'web.app:80' is not NS/POD:PORT, as WatchPort takes it\n")
        run = self.run_tool("subscribe", "127.0.0.1:1", "WatchPort2", "web.app:80")
        self.require(run, 2, "", "subscribe: 'web.app:80' is not NS/POD:PORT, as WatchPort2 takes it\n")
        self.assertEqual(2, self.run_tool("subscribe", "127.0.0.1:1", "Get", "10.96.0.10:80").status)
        self.assertEqual(2, self.run_tool("subscribe", "127.0.0.1:1", "Post", "web.app").status)
        self.assertEqual(2, self.run_tool("subscribe", "127.0.0.1:1", "Get", "web.app", "--count", "0").status)

    def test_a_server_that_is_not_there(self):
        """One sentence."""
        with socket.create_server(("127.0.0.1", 0)) as listener:
            address = f"127.0.0.1:{listener.getsockname()[1]}"
        run = self.run_tool("subscribe", address, "Get", "web.app")
        self.require(run, 8, "", f"subscribe: no server at {address}: Connection refused\n")
