"""`wunthavel web`: what a history has is shown as text, under a strict policy, to who asks for the loopback address; and `html` writes what changed."""
import contextlib
import html.parser
import http.client
import os
import subprocess
import sys
import threading
import unittest
from typing import Dict, List, Optional, Tuple
from unittest import mock
from urllib.parse import quote

import wunthavel
from tests.support import ADA, PATIENCE, WithRepo, wait_until
from wunthavel import html as static
from wunthavel import web

PACKAGE = os.path.dirname(os.path.dirname(os.path.abspath(__file__)))
# Markup that ends others and runs a script, if it were read as markup.
HOSTILE = "</pre></title></li>\"'><script>alert(1)</script><img src=x onerror=alert(1)>"
KINDS = "a body circle code dd div dl dt form h1 h2 head header html input li link main meta nav ol p path pre section span strong svg table tbody td title tr ul".split()
ATTRIBUTES = "action aria-hidden aria-label charset class content cx cy d height href id lang name placeholder r rel role tabindex type width".split()


class Reader(html.parser.HTMLParser):
    """What a page's elements are, where its links go, and its text."""

    def __init__(self, page: str) -> None:
        super().__init__()
        self.kinds: List[str] = []
        self.attributes: List[str] = []
        self.links: List[str] = []
        self.text = ""
        self.feed(page)

    def handle_starttag(self, tag: str, attributes: List[Tuple[str, Optional[str]]]) -> None:
        self.kinds.append(tag)
        self.attributes += [name for name, _ in attributes]
        self.links += [value or "" for name, value in attributes if name == "href"]

    def handle_data(self, data: str) -> None:
        self.text += data


class WithSite(WithRepo):
    def setUp(self) -> None:
        super().setUp()
        self.first = self.repo.commit(f"Begin {HOSTILE}\n\nBody {HOSTILE}").put("notes/page", b"one\ntwo\n").put("pixels", b"\0\1").run()
        hostile = HOSTILE.replace("/", "").encode()
        edit = self.repo.commit("Go on").put("notes/page", b"one\n2\n").put(b"dir/" + hostile, HOSTILE.encode() + b"\n").put(b"bytes \xff?#%", b"x")
        self.second = edit.put("long", b"a line\n" * 100_000).put("pixels", b"\0\2").run()
        self.repo.tag("v1", self.first, f"One {HOSTILE}")
        self.repo.close()

    def serve(self, reading: web.Reading) -> None:
        self.reading = reading
        self.site = web.Site(reading, 0)
        thread = threading.Thread(target=self.site.serve_forever, kwargs={"poll_interval": 0.01})
        thread.start()
        self.addCleanup(reading.close)
        self.addCleanup(self.site.server_close)
        self.addCleanup(thread.join)
        self.addCleanup(self.site.shutdown)

    def ask(self, place: str, host: Optional[str] = None, method: str = "GET") -> Tuple[int, Dict[str, str], str]:
        connection = http.client.HTTPConnection("127.0.0.1", self.site.server_port, timeout=PATIENCE)
        with contextlib.closing(connection):
            connection.request(method, place, headers={} if host is None else {"Host": host})
            reply = connection.getresponse()
            return reply.status, dict(reply.getheaders()), reply.read().decode("utf-8", "replace")

    def page(self, place: str) -> Reader:
        status, headers, page = self.ask(place)
        self.assertEqual((status, headers["Content-Type"]), (200, "text/html; charset=utf-8"), place)
        return Reader(page)

    def places(self) -> List[str]:
        """Returns the addresses of all pages that links lead to from the first one, and from the search."""
        left, found = ["/", "/search?q=e", "/search?q=" + quote(HOSTILE)], []
        while left:
            place = left.pop()
            if place not in found:
                found.append(place)
                if not place.startswith("/raw/"):
                    left += [it for it in self.page(place).links if it.startswith("/") and it != "/web.css"]
        return found


class Site(WithSite):
    def setUp(self) -> None:
        super().setUp()
        self.serve(web.Reading(self.store))

    def test_no_page_has_markup_of_a_history(self) -> None:
        for place in self.places():
            status, headers, page = self.ask(place)
            self.assertEqual(status, 200, place)
            self.assertEqual(headers["Content-Security-Policy"], "default-src 'none'; style-src 'self'; form-action 'self'; base-uri 'none'; frame-ancestors 'none'")
            self.assertEqual(headers["X-Content-Type-Options"], "nosniff")
            if place.startswith("/raw/"):
                self.assertEqual(headers["Content-Type"], "text/plain; charset=utf-8")
                continue
            read = Reader(page)
            self.assertEqual(set(read.kinds) - set(KINDS), set(), place)
            self.assertEqual(set(read.attributes) - set(ATTRIBUTES), set(), place)
            self.assertEqual([it for it in read.links if not it.startswith(("/", "#main"))], [], place)

    def test_what_a_commit_changed(self) -> None:
        page = self.page(f"/commit/{self.second}").text
        self.assertIn("@@ -1,2 +1,2 @@ one-two+2", page.replace("\n", ""))
        self.assertIn("It isn't text (2 and 2 bytes).", page)
        self.assertIn("It is too long to be compared here (700,000 bytes).", page)
        self.assertIn("+" + HOSTILE, page)
        self.assertIn(f"Body {HOSTILE}", self.page(f"/commit/{self.first}").text)

    def test_files_history_blame_names_and_search(self) -> None:
        self.assertIn("one2", self.page(f"/file/{self.second}/notes/page").text)
        self.assertIn(f"/file/{self.second}/bytes%20%FF%3F%23%25", self.page(f"/files/{self.second}").links)
        history = self.page(f"/history/{self.second}/notes/page")
        self.assertEqual([it for it in history.links if it.startswith("/commit/")][-2:], [f"/commit/{self.second}", f"/commit/{self.first}"])
        blame = self.page(f"/blame/{self.second}/notes/page")
        self.assertEqual([it for it in blame.links if it.startswith("/commit/")][-2:], [f"/commit/{self.first}", f"/commit/{self.second}"])
        self.assertIn(f"One {HOSTILE}", self.page("/names").text)
        self.assertIn("1 of the newest 2 commits", self.page("/search?q=go+on").text)
        self.assertIn(f"/file/{self.second}/notes/page", self.page("/search?q=NOTES").links)
        self.assertEqual(self.ask(f"/raw/{self.second}/notes/page")[2], "one\n2\n")

    def test_links_are_of_ids(self) -> None:
        links = [it for it in self.page("/").links if it.startswith("/commit/")]
        self.assertEqual(links, [f"/commit/{self.second}", f"/commit/{self.first}"])
        self.assertIn(f"/file/{self.second}/notes/page", self.page("/files/HEAD/notes").links)

    def test_who_asks_for_another_address(self) -> None:
        self.assertEqual(self.ask("/", host=f"evil.example:{self.site.server_port}")[0], 421)
        self.assertEqual(self.ask("/", host=f"localhost:{self.site.server_port}")[0], 200)
        self.assertEqual(self.site.server_address[0], "127.0.0.1")

    def test_what_is_not_there(self) -> None:
        for place in ("/nothing", "/commit/none", f"/file/{self.second}/none", "/file", "/commit/%00", f"/blame/{self.second}/notes"):
            self.assertEqual(self.ask(place)[0], 404, place)
        self.assertEqual(self.ask("/", method="POST")[0], 501)

    def test_the_folder_is_let_go(self) -> None:
        self.page("/")
        with wunthavel.Repo(self.store, actor=ADA, wait=PATIENCE) as repo:
            repo.commit("Beside").put("beside", b"1").run()
        self.assertIn("Beside", self.page("/").text)

    def test_a_folder_that_an_engine_has(self) -> None:
        self.reading.close()
        with wunthavel.Repo(self.store, wait=PATIENCE), mock.patch("wunthavel.repo.Repo.__init__.__kwdefaults__", {**wunthavel.Repo.__init__.__kwdefaults__, "wait": 0.1}):
            self.assertEqual(self.ask("/")[0], 503)
        self.assertEqual(self.ask("/")[0], 200)

    def test_a_new_history(self) -> None:
        store = os.path.join(self.room, "new")
        wunthavel.Repo.create(store).close()
        self.serve(web.Reading(store))
        for place in ("/", "/names", "/files/HEAD", "/search?q=a"):
            self.page(place)


class BesideAServer(WithSite):
    def test_a_socket_for_reading_alone(self) -> None:
        socket = os.path.join(self.room, "s")
        words = [sys.executable, "-m", "wunthavel", "serve", "-", self.store, "--quiet", "--read-only", socket]
        process = subprocess.Popen(words, env={**os.environ, "PYTHONPATH": PACKAGE})
        self.addCleanup(process.wait)
        self.addCleanup(process.terminate)
        wait_until(lambda: os.path.exists(socket))
        self.serve(web.Reading(self.store, socket))
        self.assertIn("+2", self.page(f"/commit/{self.second}").text)
        self.assertIn(f"One {HOSTILE}", self.page("/names").text)


class Static(WithSite):
    def test_html_writes_what_changed(self) -> None:
        out = os.path.join(self.room, "out")
        static.write(self.store, out, told=5)
        self.assertEqual(sorted(os.listdir(os.path.join(out, "commit"))), sorted([f"{self.first}.html", f"{self.second}.html", "web.css"]))
        with open(os.path.join(out, "commit", f"{self.second}.html"), encoding="utf-8") as it:
            page = Reader(it.read())
        self.assertIn("@@ -1,2 +1,2 @@ one-two+2", page.text.replace("\n", ""))
        self.assertEqual(set(page.kinds) - set(KINDS), set())
        self.assertEqual(set(page.links), {"web.css", "#main", "../index.html", f"{self.first}.html"})

    def test_within_a_size(self) -> None:
        out = os.path.join(self.room, "out")
        static.write(self.store, out, told=2)
        size = os.path.getsize(os.path.join(out, "commit", f"{self.second}.html"))
        for most, count in ((size - 1, 0), (size, 1)):
            static.write(self.store, os.path.join(self.room, str(most)), told=2, most=most)
            self.assertEqual(len(os.listdir(os.path.join(self.room, str(most), "commit"))), count + 1)


if __name__ == "__main__":
    unittest.main()
