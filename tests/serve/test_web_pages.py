"""A page in Chromium whose origin is a port of a line: its requests of many kinds are rejected, and change nothing."""
import http.server
import re
import threading

import pytest

from support.clients import connect, free_ports, has_ended, wait_for
from support.racks import line, rack
from support.telegrams import fresh_diagnosis, slave_diag

MASTERS = [0, 1, 22, 33, 70, 71, 79, 80, 102, 104]
# What a web page does to a port, by name: an expression of JavaScript with the port for PORT. Some end by themselves; what comes
# of the others is in the log of the rack.
ACTS = "\\nin 5 beef\\nhalt\\n"
PAGE_ACTS = {
    **{f"method {method}": f'fetch("/x", {{method: "{method}", body: "{ACTS}"}}).catch(() => 0)'
       for method in ("FOO", "!x", "hAAh", "foo", "PUT", "h")},
    "https": 'fetch("https://127.0.0.1:PORT/").catch(() => 0)',
    "WebSocket": 'new Promise(end => { const s = new WebSocket("ws://127.0.0.1:PORT/"); s.onclose = s.onerror = () => end(0); })',
    "secure WebSocket": """new Promise(end => {
        const s = new WebSocket("wss://127.0.0.1:PORT/");
        s.onclose = s.onerror = () => end(0);
    })""",
    "a form": f"""(() => {{
        const frame = document.body.appendChild(Object.assign(document.createElement("iframe"), {{name: "f"}}));
        const form = document.body.appendChild(Object.assign(document.createElement("form"),
            {{method: "POST", action: "http://127.0.0.1:PORT/x", enctype: "text/plain", target: "f"}}));
        form.appendChild(Object.assign(document.createElement("textarea"), {{name: "a", value: "{ACTS}"}}));
        form.submit();
    }})()""",
    "TURN over TCP": """(() => {
        const peer = new RTCPeerConnection({iceServers: [{urls: "turn:127.0.0.1:PORT?transport=tcp", username: "u",
            credential: "c"}], iceTransportPolicy: "relay"});
        peer.createDataChannel("x");
        return peer.createOffer().then(offer => peer.setLocalDescription(offer)).catch(() => 0);
    })()""",
}
PRECONNECT = """(() => {
    document.head.appendChild(Object.assign(document.createElement("link"), {rel: "preconnect", href: "http://127.0.0.1:PORT/"}));
})()"""


class Blank(http.server.BaseHTTPRequestHandler):
    """An empty page."""

    def do_GET(self):
        body = b"<!doctype html><meta charset=utf-8><title>x</title><body></body>"
        self.send_response(200)
        self.send_header("Content-Type", "text/html")
        self.send_header("Content-Length", str(len(body)))
        self.end_headers()
        self.wfile.write(body)

    def log_message(self, *_):
        pass


def page_from(browser, port):
    """Returns a page whose origin is a port of this machine, at which nothing listens any more."""
    server = http.server.HTTPServer(("127.0.0.1", port), Blank)
    thread = threading.Thread(target=server.serve_forever)
    thread.start()
    try:
        page = browser.page()
        page.open(f"http://127.0.0.1:{port}/")
    finally:
        server.shutdown()
        thread.join()
        server.server_close()
    return page


def rejected_by(log):
    """Returns how many connections a log says were rejected as requests of the web."""
    more = sum(map(int, re.findall(r"(\d+) more rows about the port", log)))
    return log.count("HTTP, TLS or STUN request rejected") + more


def wait_for_rejections(server, port, count):
    """Waits until a number of connections was rejected. The log sums up the rows that one second had no room for before its next
    row, so a request of this process asks for a row in each second; these requests are not counted."""
    requests = 0

    def are_rejected():
        nonlocal requests
        connection = connect(port)
        connection.send(b"GET / HTTP/1.1\r\n\r\n")
        assert has_ended(connection)
        connection.close()
        requests += 1
        return rejected_by(server.errors()) - requests >= count

    wait_for(are_rejected, every=1.1)
    assert "HTTP, TLS or STUN request rejected\n" in server.errors()


@pytest.mark.parametrize("of", ["masters", "operators"])
def test_web_pages_change_nothing(serve, tmp_path, browser, of):
    """Each kind of request is rejected, no entry comes of it, and a master and an operator are served while the page keeps
    connections open."""
    ports = dict(zip(("masters", "operators"), free_ports(2)))
    page = page_from(browser, ports[of])
    server = serve(rack(line(1, 5, masters=MASTERS, listen=ports["masters"], operator=ports["operators"])), "--log", "--audit",
                   tmp_path / "audit", "--until-input-ends", piped=True)
    acts = ", ".join(PAGE_ACTS.values()).replace("PORT", str(ports[of]))
    page.evaluate(f"window.acts = [{acts}]; 0")
    page.evaluate(PRECONNECT.replace("PORT", str(ports[of])))
    page.evaluate("Promise.allSettled(window.acts).then(() => 0)")
    wait_for_rejections(server, ports[of], len(PAGE_ACTS))
    assert server.operator().ask("tick 1") == "released"
    assert server.master(1).raw(slave_diag(1, 5)) == fresh_diagnosis(1, 5)
    rows = (tmp_path / "audit" / "line-1-1.audit").read_text().splitlines()[1:]
    page.close()
    assert [row.split(" | ")[0] for row in rows] == ["1 tick 1", f"2 req 1 {slave_diag(1, 5).hex()}"]
    server.end_input()
    assert server.wait().status == 0
