"""The hall: what each seat sees and is answered, its links, and the files beside a session."""

from __future__ import annotations

import contextlib
import html
import io
import json
import random
import re
import shutil
import stat
import threading
import unittest
from html.parser import HTMLParser
from pathlib import Path
from unittest import mock
from urllib.parse import urlencode
from wsgiref.util import setup_testing_defaults
from wsgiref.validate import validator

from halls import CLASS, SETTINGS, Answer, Client, HallTest, Served, in_round
from records import ROOT
from reference_engine.command import BadInput
from reference_engine.hall import roster
from reference_engine.hall.application import Application, hall_of
from reference_engine.hall.hall import Hall
from reference_engine.hall.roster import Listed, Plant, read_roster
from reference_engine.hall.style import STYLE
from reference_engine.hall.words import _WORDS, refused
from reference_engine.replies import reply_in
from reference_engine.session import AUCTIONEER, AUDITOR, Seat, Session

DEVELOPER = [Seat.developer(number) for number in range(33)]


class _Seen(HTMLParser):
    """The elements of a page that is well nested, and its text."""

    EMPTY = {"meta", "link", "input", "line", "path", "polyline", "rect", "circle"}

    def __init__(self, text: str) -> None:
        super().__init__()
        self.open: list[str] = []
        self.elements: list[tuple[str, dict[str, str | None]]] = []
        self.text = ""
        self.feed(text)
        assert not self.open, self.open

    def handle_starttag(self, tag: str, attrs: list[tuple[str, str | None]]) -> None:
        self.elements.append((tag, dict(attrs)))
        if tag not in self.EMPTY:
            self.open.append(tag)

    def handle_startendtag(self, tag: str, attrs: list[tuple[str, str | None]]) -> None:
        self.elements.append((tag, dict(attrs)))

    def handle_endtag(self, tag: str) -> None:
        assert self.open.pop() == tag, tag

    def handle_data(self, data: str) -> None:
        if self.open[-1:] not in (["script"], ["style"]):
            self.text += f"{data} "

    def all(self, tag: str) -> list[dict[str, str | None]]:
        return [attributes for name, attributes in self.elements if name == tag]


def words_of(answer: Answer) -> str:
    """The text of a page, with single blanks."""
    return " ".join(_Seen(answer.text).text.split())


def shown_of(answer: Answer) -> str:
    """The fingerprint of a page."""
    return re.findall('data-shown="([0-9a-f]{32})"', answer.text)[0]


class WholeSession(HallTest):
    def test_as_a_class_holds_it(self) -> None:
        """From set-up to settling; figures are FORMAT's lodged list with 550,000, and a rest."""
        served = self.served()
        auctioneer, auditor = served.at(AUCTIONEER), served.at(AUDITOR)
        carla, fourth = served.at(DEVELOPER[3]), served.at(DEVELOPER[4])
        self.assertIn("You are not registered yet", words_of(carla.get()))
        self.assertReplies(auctioneer.post("set_up", SETTINGS), "0100")
        self.assertIn("Plants of the class list", words_of(auctioneer.get()))
        self.assertReplies(auctioneer.post("listed"), "0800")
        self.assertNotIn("Plants of the class list", words_of(auctioneer.get()))
        lodged = {"developer": "1", "price1": "30", "level1": "300,000"}
        self.assertReplies(auctioneer.post("lodge", lodged), "0700")
        self.assertReplies(auctioneer.post("open", c="30"), "0300")
        page = words_of(carla.get())
        for figure in ("40.000 US$ per MWh", "30.000 US$ per MWh", "275,000 · 550,000 kWh per day"):
            self.assertIn(figure, page)
        self.assertReplies(carla.post("offer", price1="32.5", level1="275000"), "0400")
        self.assertIn("32.500 275,000", words_of(carla.get()))
        self.assertReplies(carla.post("cancel"), "0900")
        self.assertReplies(carla.post("keep"), "0400")
        self.assertIn("You keep your whole quantity", words_of(carla.get()))
        self.assertReplies(fourth.post("keep"), "0400")
        preview = "excess if closed now 423,457 kWh per day Then the auction goes on"
        self.assertIn(preview, words_of(auctioneer.get()))
        self.assertEqual(auctioneer.post("close").reply, f"0500{423_457:016X}{0:08X}")
        self.assertIn("423,457 kWh per day", words_of(carla.get()))
        self.assertIn("30.000 1,573,457 1,373,457", words_of(auctioneer.get()))
        forced = words_of(auctioneer.get("?first=3&second=4&prices=29+28.5"))
        expected = served.hall.known(AUCTIONEER).session.who_can_force(
            AUCTIONEER, 3, 4, [29_000, 28_500]
        )
        self.assertIn(f"Developer 3 can force {expected.outcome / 1000:.3f} US$ per MWh", forced)
        self.assertReplies(auctioneer.post("open", c="10"), "0300")
        self.assertReplies(carla.post("offer", price1="25", level1="0"), "0400")
        self.assertEqual(auctioneer.post("close").reply[:4], "0500")
        settled = auditor.post("settle")
        self.assertEqual(settled.reply[:4], "0600")
        figures = reply_in(settled.reply)
        page = words_of(auditor.get())
        self.assertIn(f"Closing price {figures.price / 1000:.3f} US$ per MWh", page)
        for award in figures.awards:
            self.assertIn(f"{award.project} {award.developer} {award.quantity:,}", page)
        self.assertNotIn("Carla", page)
        self.assertReplies(auctioneer.post("settle", limit="0"), "060A")
        self.assertIn("There are more admissible choices", words_of(auctioneer.get()))

    def test_the_record_is_for_report(self) -> None:
        served = self.served()
        in_round(served)
        self.assertReplies(served.at(DEVELOPER[3]).post("open", c="20"), "0314")
        record = Session(self.path.read_bytes()).record()
        self.assertEqual([reply.number for reply in record.replies()], [0] * 6)

    def test_goes_on_where_it_stopped(self) -> None:
        first = Served(self.path, CLASS)
        in_round(first)
        first.at(DEVELOPER[3]).post("keep")
        seats = [Seat(0), Seat(1), *DEVELOPER[1:5]]
        before = [(first.at(seat).key, first.at(seat).get().text) for seat in seats]
        first.end()
        second = self.served([])
        after = [(second.at(seat).key, second.at(seat).get().text) for seat in seats]
        self.assertEqual(before, after)
        self.assertEqual(second.said, [])

    def test_without_a_list(self) -> None:
        """The auctioneer registers, and a developer's link is made and told where it is run."""
        served = self.served([])
        self.assertEqual([each.seat for each in served.hall.seats.all()], [AUCTIONEER, AUDITOR])
        auctioneer = served.at(AUCTIONEER)
        auctioneer.post("set_up", SETTINGS)
        plant = {"project": "7", "developer": "9", "kind": "2", "levels": "100 2,000; 30000"}
        self.assertReplies(auctioneer.post("register", plant), "0200")
        key = served.at(DEVELOPER[9]).key
        self.assertEqual(served.said, [f"developer 9: http://hall/{key}"])
        self.assertNotIn(key, auctioneer.get().text)
        self.assertIn("100 · 2,000 · 30,000", words_of(served.at(DEVELOPER[9]).get()))


class Refusals(HallTest):
    def at_field(self, answer: Answer, field: str, words: str) -> None:
        """The field is marked wrong, described by the words, and gets the focus."""
        page = _Seen(answer.text)
        marked = [each for each in page.elements if each[1].get("aria-invalid") == "true"]
        self.assertEqual([each[1].get("id") for each in marked], [field])
        self.assertIn("autofocus", marked[0][1])
        said = re.findall(rf'id="{marked[0][1]["aria-describedby"]}">([^<]*)<', answer.text)
        self.assertEqual(len(said), 1)
        self.assertIn(words, html.unescape(said[0]))

    def test_beside_the_field(self) -> None:
        """The step that the library refuses is found by asking it; what was typed stays."""
        served = self.served()
        in_round(served)
        carla = served.at(DEVELOPER[3])
        for fields, reply, field, words in (
            ({"price1": "40", "level1": "275000"}, "0406", "offer-price1", "below the opening"),
            (
                {"price1": "35", "level1": "275000", "price2": "35", "level2": "0"},
                "0406",
                "offer-price2",
                "Prices fall",
            ),
            ({"price1": "35", "level1": "550000"}, "0407", "offer-level1", "one of those declared"),
            (
                {"price1": "35", "level1": "275000", "price2": "34", "level2": "275000"},
                "0407",
                "offer-level2",
                "below the one before",
            ),
        ):
            self.assertReplies(carla.post("offer", fields), reply)
            page = carla.get()
            self.at_field(page, field, words)
            values = {each.get("name"): each.get("value") for each in _Seen(page.text).all("input")}
            self.assertEqual(values["price1"], f"{fields['price1']}.000")

    def test_unclear_is_no_line(self) -> None:
        served = self.served()
        in_round(served)
        kept = self.path.read_bytes()
        carla, auctioneer = served.at(DEVELOPER[3]), served.at(AUCTIONEER)
        for client, form, fields, field, words in (
            (carla, "offer", {"price1": "32,5", "level1": "0"}, "offer-price1", "with a point"),
            (carla, "offer", {"price1": "1e3", "level1": "0"}, "offer-price1", "with a point"),
            (carla, "offer", {"price1": "32.5", "level1": ""}, "offer-level1", "whole number"),
            (carla, "offer", {}, "offer-price1", "Fill in a step"),
        ):
            answer = client.post(form, fields)
            self.assertEqual(answer.status, 422)
            self.at_field(answer, field, words)
            self.assertEqual(shown_of(answer), shown_of(client.get()))
        for form, fields in (("open", {"c": "4294968"}), ("set_up", {**SETTINGS, "d": "1" * 13})):
            answer = auctioneer.post(form, fields)
            self.assertEqual(answer.status, 422)
            self.assertIn("Not sent", words_of(answer))
        self.assertEqual(self.path.read_bytes(), kept)

    def test_stale_refusal_is_not_beside_the_field(self) -> None:
        served = self.served()
        in_round(served)
        auctioneer, carla = served.at(AUCTIONEER), served.at(DEVELOPER[3])
        carla.post("offer", price1="40", level1="0")
        self.assertIn('aria-invalid="true"', carla.get().text)
        served.at(DEVELOPER[4]).post("keep")
        auctioneer.post("close")
        auctioneer.post("open", c="29")
        self.assertIn("Make an offer", words_of(carla.get()))
        self.assertNotIn('aria-invalid="true"', carla.get().text)

    def test_rights_are_the_librarys(self) -> None:
        """Any form may be sent through any seat: the line is kept, and refused by 20."""
        served = self.served()
        in_round(served)
        carla, auditor, auctioneer = map(served.at, (DEVELOPER[3], AUDITOR, AUCTIONEER))
        for client, form, fields, reply in (
            (carla, "set_up", SETTINGS, "0114"),
            (carla, "open", {"c": "20"}, "0314"),
            (carla, "close", {}, "0514"),
            (carla, "settle", {}, "0614"),
            (carla, "keep", {"developer": "4"}, "0414"),
            (carla, "cancel", {"developer": "4"}, "0914"),
            (auditor, "close", {}, "0514"),
            (auctioneer, "keep", {"developer": "3"}, "0414"),
        ):
            self.assertReplies(client.post(form, fields), reply)
            self.assertIn("This seat has no right to that call", words_of(client.get()))
        for client in (carla, auditor):
            for form in ("listed", "renew"):
                self.assertEqual(client.post(form, kind="2", number="4").status, 404)

    def test_every_refusal_of_a_call_has_words(self) -> None:
        """Those of docs/RULES.md's table of calls, by frame; each is about a field or the form."""
        rules = (ROOT / "docs/RULES.md").read_text(encoding="utf-8")
        calls = {0x01: "set-up", 0x02: "registration", 0x03: "opening", 0x04: "offer"}
        calls |= {0x05: "closing, preview", 0x06: "settling", 0x07: "lodging"}
        calls |= {0x08: "registration", 0x09: "cancellation"}
        orders = {}
        for kind, call in calls.items():
            (order,) = re.findall(rf"^\| {call} \| ([0-9, ]+) \|", rules, re.MULTILINE)
            # 11 is no line's answer: the reply's buffer always holds the award.
            orders[kind] = [number for number in map(int, order.split(", ")) if number != 11]
        self.assertEqual(
            {kind: {*numbers} for kind, numbers in orders.items()},
            {kind: {*words} for kind, words in _WORDS.items()},
        )
        for kind, numbers in orders.items():
            for number in (*numbers, 20):
                self.assertRegex(refused(reply_in(f"{kind:02X}{number:02X}"))[1], r"^[A-Z].*\.$")


class Secrecy(HallTest):
    def test_page_is_made_of_the_view_alone(self) -> None:
        """Sessions of one view for developer 3, whatever others offer: one page, byte for byte."""
        choice = random.Random(14)
        for _ in range(25):
            rounds, ended = choice.randint(1, 3), choice.random() < 0.5
            own = choice.choice([None, [], [(32_000, 275_000)], [(45_000, 0)]])
            pair = [_one_view(rounds, ended, own, moved) for moved in ((4, 5), (5, 4))]
            self.assertNotEqual(*map(bytes, pair))
            texts = []
            for session in pair:
                self.path.write_bytes(bytes(session))
                hall = Hall(self.path, CLASS)
                texts.append(_called(Application(hall), hall, DEVELOPER[3]))
                hall.close()
            self.assertIn("275,000 · 550,000", texts[0])
            self.assertEqual(*texts)

    def test_no_page_has_a_link_or_others_values(self) -> None:
        served = self.served()
        in_round(served)
        served.at(DEVELOPER[4]).post("offer", price1="31.337", level1="0")
        seats = [Seat(0), Seat(1), *DEVELOPER[1:5]]
        keys = {seat: served.at(seat).key for seat in seats}
        for seat in seats:
            page = served.at(seat).get().text
            for other in seats:
                if other != seat:
                    self.assertNotIn(keys[other], page)
            if seat != DEVELOPER[4]:
                self.assertNotIn("31.337", page)
            if seat not in (DEVELOPER[4], AUCTIONEER):
                self.assertNotIn("123,457", page)
                self.assertNotIn("script&gt;", page)
        self.assertNotIn("<script>alert", served.at(AUCTIONEER).get().text)
        self.assertIn("&lt;script&gt;alert(4)", served.at(AUCTIONEER).get().text)

    def test_wrong_links_find_nothing(self) -> None:
        served = self.served()
        key = served.at(DEVELOPER[3]).key
        wrong = ["", "favicon.ico", key[:-1], f"{key}x", key.swapcase(), key[::-1], "..", "%00"]
        found = {Client(served.port, each).get().text for each in wrong}
        found |= {
            Client(served.port, key).get(rest).text
            for rest in ("/", "/x", "/../", "/keep", "/changes/")
        }
        found |= {Client(served.port, wrong[2]).post(form).text for form in ("keep", "close", "x")}
        self.assertEqual(len(found), 1)
        answer = Client(served.port, wrong[4]).get()
        self.assertEqual((answer.status, answer.text), (404, found.pop()))
        self.assertEqual(Client(served.port, key).get(method="PUT").status, 405)
        self.assertEqual(Client(served.port, wrong[4]).get(method="PUT").status, 404)

    def test_headers(self) -> None:
        served = self.served()
        client = served.at(DEVELOPER[3])
        for answer in (
            client.get(),
            client.get(method="HEAD"),
            client.post("keep"),
            Client(served.port, "x").get(),
        ):
            headers = answer.headers
            self.assertEqual(headers["referrer-policy"], "no-referrer")
            self.assertEqual(headers["x-content-type-options"], "nosniff")
            self.assertEqual(headers["cache-control"], "no-store")
            self.assertIn("default-src 'none'", headers["content-security-policy"])
            self.assertNotIn("unsafe", headers["content-security-policy"])
        self.assertNotRegex(client.get().text, r'(?:src|href)="(?!/|data:,)')
        self.assertNotIn(' style="', client.get().text)

    def test_renewed_link(self) -> None:
        served = self.served()
        old, auctioneer = served.at(DEVELOPER[3]), served.at(AUCTIONEER)
        waiting: list[Answer] = []
        shown = shown_of(old.get())
        thread = threading.Thread(target=lambda: waiting.append(old.get(f"/changes?shown={shown}")))
        thread.start()
        self.assertEqual(auctioneer.post("renew", kind="2", number="3").status, 303)
        thread.join()
        self.assertIn(waiting[0].status, (404,))
        new = served.at(DEVELOPER[3])
        self.assertEqual((old.get().status, new.get().status), (404, 200))
        self.assertEqual(served.said, [f"developer 3, Carla Ruiz, renewed: http://hall/{new.key}"])
        self.assertNotIn(new.key, auctioneer.get().text)
        for number in ("0", "33", "x", ""):
            self.assertEqual(auctioneer.post("renew", kind="2", number=number).status, 400)
        self.assertEqual(stat.S_IMODE(Path(f"{self.path}.seats").stat().st_mode), 0o600)
        self.assertEqual(stat.S_IMODE(self.path.stat().st_mode), 0o600)
        again = Hall(shutil.copy(self.path, f"{self.path}2"))
        again.close()
        keys = {
            each["key"] for each in json.loads(Path(f"{self.path}.seats").read_bytes())["seats"]
        }
        self.assertEqual(keys, {each.key for each in served.hall.seats.all()})
        self.assertEqual({len(key) for key in keys}, {22})


def _one_view(
    rounds: int, ended: bool, own: list[tuple[int, int]] | None, moved: tuple[int, int]
) -> Session:
    """A session whose view for developer 3 the first three decide.

    4 and 5 have equal plants, so that which of them reduces its quantity leaves the excess.
    """
    session = Session()
    calls = session.at(AUCTIONEER)
    calls.set_up(20_000, 1_000_000, 900_000, 1_200_000, 40_000)
    for number in (1, 2, 3, 4, 5):
        calls.register(number, number, 1 if number < 3 else 2, [275_000, 550_000])
    for turn in range(rounds):
        calls.open(30_000 - 2_000 * turn)
        if own is not None or turn:
            session.at(DEVELOPER[3]).offer(3, own if own and turn == 0 else [])
        session.at(DEVELOPER[moved[0]]).offer(moved[0], [(31_000, 275_000)] if turn == 0 else [])
        for _ in range(moved[0] - 4):
            session.at(AUDITOR).settle(7)
            session.at(DEVELOPER[4]).offer(4, [(31_001, 0)]).at(DEVELOPER[4]).cancel(4)
        session.at(DEVELOPER[moved[1]]).offer(moved[1])
        if turn + 1 < rounds or ended:
            calls.close()
    return session


def _called(application: Application, hall: Hall, seat: Seat, **environ: object) -> str:
    """What the application answers, called as a server would, and seen by wsgiref's validator."""
    (key,) = [each.key for each in hall.seats.all() if each.seat == seat]
    given: dict[str, object] = {
        "PATH_INFO": f"/{key}",
        "SCRIPT_NAME": "",
        "QUERY_STRING": "",
        **environ,
    }
    setup_testing_defaults(given)
    started: list[object] = []
    made = validator(application)(
        given,
        lambda status, headers, exc=None: started.append((status, headers)) or (lambda text: None),
    )
    text = b"".join(made)
    made.close()
    return f"{started}{text.decode()}".replace(key, "KEY")


class Changes(HallTest):
    def test_told_when_the_own_page_changes(self) -> None:
        served = self.served()
        in_round(served)
        carla = served.at(DEVELOPER[3])
        shown = shown_of(carla.get())
        found: list[Answer] = []
        thread = threading.Thread(target=lambda: found.append(carla.get(f"/changes?shown={shown}")))
        thread.start()
        served.at(AUCTIONEER).post("close")
        thread.join()
        self.assertEqual((found[0].status, found[0].text), (200, "changed"))
        self.assertEqual(carla.get("/changes?shown=").status, 200)

    def test_others_calls_stir_nobody_else(self) -> None:
        served = self.served(wait=1.0)
        in_round(served)
        carla = served.at(DEVELOPER[3])
        shown = shown_of(carla.get())
        found: list[Answer] = []
        thread = threading.Thread(target=lambda: found.append(carla.get(f"/changes?shown={shown}")))
        thread.start()
        self.assertReplies(served.at(DEVELOPER[4]).post("keep"), "0400")
        self.assertReplies(served.at(AUDITOR).post("settle"), "0602")
        thread.join()
        self.assertEqual(found[0].status, 204)
        self.assertEqual(shown_of(carla.get()), shown)

    def test_the_auctioneers_preview_follows_offers(self) -> None:
        served = self.served()
        in_round(served)
        auctioneer = served.at(AUCTIONEER)
        shown = shown_of(auctioneer.get())
        served.at(DEVELOPER[4]).post("keep")
        self.assertEqual(auctioneer.get(f"/changes?shown={shown}").status, 200)

    def test_few_pages_of_a_seat_wait(self) -> None:
        hall = Hall(self.path)
        self.addCleanup(hall.close)
        with contextlib.ExitStack() as stack:
            events = [stack.enter_context(hall.watching(AUDITOR)) for _ in range(9)]
        self.assertEqual([event is None for event in events], [False] * 8 + [True])
        with hall.watching(AUDITOR) as event:
            self.assertIsNotNone(event)


class Pages(HallTest):
    def test_labels_and_ids(self) -> None:
        """Every field has a label, ids are single, and what is described is there."""
        served = self.served()
        pages = []
        auctioneer, carla = served.at(AUCTIONEER), served.at(DEVELOPER[3])
        steps = [
            ("set_up", SETTINGS),
            ("listed", {}),
            ("open", {"c": "30"}),
            ("close", {}),
            ("open", {"c": "10"}),
            ("close", {}),
            ("settle", {}),
        ]
        for form, fields in steps:
            pages += [auctioneer.get(), carla.get(), served.at(AUDITOR).get()]
            carla.post("offer", price1="39", level1="1")
            pages.append(carla.get())
            auctioneer.post("open", c="41")
            pages.append(auctioneer.get())
            carla.post("keep")
            self.assertEqual(auctioneer.post(form, fields).reply[2:4], "00")
        pages += [auctioneer.get(), served.at(AUDITOR).get()]
        for answer in pages:
            page = _Seen(answer.text)
            ids = [attributes["id"] for _, attributes in page.elements if "id" in attributes]
            self.assertEqual(len(ids), len(set(ids)))
            labels = {each["for"] for each in page.all("label")}
            fields = [
                each
                for each in page.all("input") + page.all("select")
                if each.get("type") != "hidden"
            ]
            self.assertEqual(labels, {each["id"] for each in fields})
            for _, attributes in page.elements:
                for name in ("aria-describedby", "aria-labelledby"):
                    for place in (attributes.get(name) or "").split():
                        self.assertIn(place, ids)
            self.assertEqual(len(page.all("h1")), 1)
            self.assertEqual([each.get("lang") for each in page.all("html")], ["en"])
            self.assertTrue(all(attributes.get("scope") for attributes in page.all("th")))

    def test_contrast(self) -> None:
        """Text on its ground has at least 4.5 by WCAG's formula."""
        colours = dict(re.findall(r"--([a-z-]+): (#[0-9a-f]{3,6})", STYLE))
        pairs = [
            ("ink", "ground"),
            ("ink", "paper"),
            ("soft", "paper"),
            ("soft", "ground"),
            ("paper", "accent"),
            ("accent", "paper"),
        ]
        pairs += [
            ("bad", "paper"),
            ("bad", "bad-ground"),
            ("ink", "bad-ground"),
            ("ink", "good-ground"),
            ("good", "paper"),
        ]
        for front, ground in pairs:
            lights = sorted(_light(colours[name]) for name in (front, ground))
            self.assertGreaterEqual((lights[1] + 0.05) / (lights[0] + 0.05), 4.5, (front, ground))


def _light(colour: str) -> float:
    digits = colour[1:] if len(colour) == 7 else "".join(2 * digit for digit in colour[1:])
    parts = [int(digits[place : place + 2], 16) / 255 for place in (0, 2, 4)]
    linear = [
        part / 12.92 if part <= 0.03928 else ((part + 0.055) / 1.055) ** 2.4 for part in parts
    ]
    return 0.2126 * linear[0] + 0.7152 * linear[1] + 0.0722 * linear[2]


class Wsgi(HallTest):
    def test_by_the_validator(self) -> None:
        """As any WSGI server calls it, below a path of its own."""
        with mock.patch("sys.stderr", io.StringIO()) as said:
            application = hall_of(str(self.path), "https://class")
            hall = application.hall
            self.addCleanup(hall.close)
            page = _called(application, hall, AUCTIONEER, SCRIPT_NAME="/auction")
            self.assertIn('action="/auction/KEY/set_up"', page)
            body = urlencode(SETTINGS).encode()
            posted = {
                "REQUEST_METHOD": "POST",
                "CONTENT_TYPE": "application/x-www-form-urlencoded",
                "CONTENT_LENGTH": str(len(body)),
                "wsgi.input": io.BytesIO(body),
            }
            (key,) = [each.key for each in hall.seats.all() if each.seat == AUCTIONEER]
            answer = _called(application, hall, AUCTIONEER, PATH_INFO=f"/{key}/set_up", **posted)
            self.assertIn("('X-Reply', '0100')", answer)
            self.assertEqual(said.getvalue(), "")

    def test_an_error_shows_nothing(self) -> None:
        served = self.served()
        with mock.patch.object(served.hall, "known", side_effect=RuntimeError("secret")):
            with mock.patch("sys.stderr", io.StringIO()) as said:
                answer = served.at(AUDITOR).get()
        self.assertEqual(answer.status, 500)
        self.assertNotIn("secret", answer.text)
        self.assertIn("RuntimeError", said.getvalue())
        self.assertNotIn(served.at(AUDITOR).key, said.getvalue())


class Manual(HallTest):
    """docs/HALL.md, held to what it says."""

    def setUp(self) -> None:
        super().setUp()
        self.page = (ROOT / "docs/HALL.md").read_text(encoding="utf-8")

    def test_the_class_of_the_manual(self) -> None:
        """Its list and its settings make an auction whose first round opens as it says."""
        (listed,) = re.findall(r"^```text\n(.*?)^```$", self.page, re.MULTILINE | re.DOTALL)
        served = self.served(read_roster(listed.encode(), "class.csv"))
        (said,) = re.findall(r"\(with the list above: (.*?)\)", self.page)
        settings = {name.lower(): value for name, value in re.findall(r"(\w+) (\d+)", said)}
        (c,) = re.findall(r"down to a closing price, such as (\d+)", self.page)
        auctioneer = served.at(AUCTIONEER)
        for form, fields in (("set_up", settings), ("listed", {}), ("open", {"c": c})):
            self.assertEqual(auctioneer.post(form, fields).reply[2:], "00")
        self.assertIn("Your standing offer", words_of(served.at(DEVELOPER[4]).get()))

    def test_columns(self) -> None:
        cells = re.findall(r"^\| (`.*?`) \|", self.page, re.MULTILINE)
        self.assertEqual(tuple(re.findall("`([a-z]+)`", " ".join(cells))), roster._COLUMNS)


class ClassLists(unittest.TestCase):
    def test_read(self) -> None:
        text = "name,developer,project,kind,levels,study,day,agent\nZoë,2,1,new,100;200,5,6,7\n\nBo,1,,,,,,\n"
        expected = [Listed(1, "Bo"), Listed(2, "Zoë", Plant(1, 2, (100, 200), 5, 6, 7))]
        for content in (
            text,
            "\ufeff" + text.replace("\n", "\r\n"),
            text.replace(";", "|").replace(",", ";").replace("100|200", '"100;200"'),
        ):
            self.assertEqual(read_roster(content.encode(), "class.csv"), expected)
        self.assertEqual(read_roster(b"developer,name\n3,\n", "x"), [Listed(3, "")])

    def test_wrong(self) -> None:
        """Line and column of what is wrong."""
        head = "name,developer,project,kind,levels\n"
        for text, said in (
            ("", "line 1: column name is missing"),
            ("name\n", "line 1: column developer is missing"),
            ("name,developer,colour\n", "line 1: no column is named 'colour'"),
            ("name,developer,name\n", "line 1: column name stands there twice"),
            (head, "no developer is listed"),
            (head + "a,,,,\n", "line 2, column developer: empty"),
            (head + "a,33,,,\n", "line 2, column developer: '33' is no whole number from 1 to 32"),
            (head + "a,1,,,\nb,1,,,\n", "line 3, column developer: 1 stands in the list twice"),
            (head + "a,1,1,,\n", "line 2, column kind: empty, though the row names a plant"),
            (head + "a,1,1,3,5\n", "line 2, column kind: '3' is neither"),
            (head + "a,1,1,2,5;x\n", "line 2, column levels: 'x' is no whole number"),
            (head + "a,1,1,2,1;2;3;4;5;6;7;8;9\n", "line 2, column levels: 9 levels"),
            (
                head + "a,1,256,2,5\n",
                "line 2, column project: '256' is no whole number from 0 to 255",
            ),
            (head + "a,1,\u0661,2,5\n", "line 2, column project: '\u0661' is no whole number"),
            (head + "a\x07,1,,,\n", "line 2, column name: a name is at most 80 printable"),
            (head + "a,1,,,,,\n", "line 2: 7 cells, and the list has 5 columns"),
            (head + 'a,"1\n', "line 2: unexpected end of data"),
        ):
            with self.assertRaises(BadInput) as caught:
                read_roster(text.encode(), "class.csv")
            self.assertIn(
                f"class.csv{',' if said.startswith('line') else ':'} {said}", str(caught.exception)
            )
        with self.assertRaisesRegex(BadInput, "class.csv, line 2: not UTF-8"):
            read_roster(b"name,developer\nJos\xe9,1\n", "class.csv")


if __name__ == "__main__":
    unittest.main()
