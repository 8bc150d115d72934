"""The page of zelkuma view in a headless Chromium: clicks, keys, drawing, print, and hostile names.

Without Chromium all of it is skipped."""
import os
import re
import subprocess
import unittest

import case
import chromium
import common
import hostile

WIDE = 1280
NARROW = 800
A4 = 718, 1040              # what is left of a page in CSS pixels, with the page's own margins
OUTSIDE = """(() => { const box = document.getElementById('timeline').getBoundingClientRect();
  return [...document.querySelectorAll('#timeline text')].filter(text => {
    const b = text.getBoundingClientRect();
    return b.left < box.left - 2 || b.right > box.right + 2;
  }).map(text => text.textContent); })()"""
OVERLAPS = """(() => { const all = [...document.querySelectorAll('#timeline text')].map(
    t => [t.textContent, t.getBoundingClientRect()]);
  const found = []; all.forEach(([a, p], i) => all.slice(0, i).forEach(([b, q]) => {
    if (p.left < q.right - 1 && q.left < p.right - 1 && p.top < q.bottom - 2
        && q.top < p.bottom - 2) found.push(a + ' / ' + b); }));
  return found; })()"""
NO_ROWS = """(() => { let bad = 0; const each = Math.ceil(40 / firstCount.size);
  for (const [hart, first] of firstCount) for (let i = 0; i < each; i++) {
    choose(hart, Math.round(first + (lastCount.get(hart) - first) * i / each), true);
    if (!document.querySelector('#rows tr.here')) bad++; } return bad; })()"""


@unittest.skipUnless(chromium.find(), "chromium isn't installed")
class PageTest(case.Case):
    browser: chromium.Browser
    pages: dict

    @classmethod
    def setUpClass(cls):
        super().setUpClass()
        cls.browser = chromium.Browser()
        cls.browser.__enter__()
        cls.pages = {}

    @classmethod
    def tearDownClass(cls):
        cls.browser.__exit__()
        super().tearDownClass()

    def page(self, name, *options):
        """The path of an example's page."""
        key = (name,) + options
        if key not in self.pages:
            text = self.says("view", self.record(name, *options), self.elf(name),
                             "--names", self.names(name))
            self.pages[key] = self.save("page%d.html" % len(self.pages), text)
        return self.pages[key]

    def save(self, name, text):
        common.written(common.path(name), text)
        return common.path(name)

    def wild(self):
        return self.page("wild_store", "--seed", "1")

    def tills(self):
        return self.page("tills", "--seed", "1", "--harts", "2")

    def open(self, path, **more):
        self.browser.open(path, **more)
        self.assertEqual(self.browser.errors(), [])

    def text(self, selector):
        return self.browser.run("document.querySelector(%r).innerText" % selector)

    def point(self):
        """The hart and the count that are chosen."""
        return self.browser.run("[state.chosen.hart, state.chosen.count]")

    def shown(self):
        return self.browser.run("[state.from, state.to]")

    def lane(self, hart, share):
        """A place on a hart's bar, in the window."""
        return self.browser.run(
            "(() => { byId('timeline').scrollIntoView({block: 'center'}); "
            "const b = byId('timeline').getBoundingClientRect();"
            " return [b.left + (scale.left + (scale.right - scale.left) * %f) * b.width "
            "/ scale.width,"
            " b.top + (scale.lane(%d) + 10) * b.height / scale.height]; })()" % (share, hart))

    def test_what_is_told(self):
        self.open(self.wild())
        self.assertEqual(self.text("h1"),
                         "wild_store.elf crashed: LoadOutside 6e657472 in put_text, machine.c:17")
        self.assertIn("text was taken for a pointer", self.text("#fault"))
        self.assertIn("put_text machine.c:18", re.sub(" +", " ", self.text("#suspects li")))
        self.assertRegex(self.text("#calls"), r"(?s)put_text.*report.*inlined.*main.*_start")
        self.assertEqual(self.point(), [0, 22675])
        self.assertIn("fault LoadOutside 6e657472", self.text("#rows tr.here"))
        self.assertIn("LoadOutside", self.text("#intervals"))
        self.assertEqual(self.browser.run("document.querySelectorAll('#registers td').length"), 64)

    def test_a_deep_stack_is_short(self):
        """40 calls, of which 19 in a row are the same, and later 40 that alternate."""
        self.open(self.wild())
        add_calls = ("D.nodes.push(...Array.from({length: 40}, (_, i) => [D.nodes.length - 1 + i, "
                     "i %% %d ? 0 : D.where]))")
        show = "showCalls(byId('calls'), {codes: [0], calls: [[0, D.nodes.length - 1]]}, 0)"
        self.browser.run(add_calls % 20)
        self.browser.run(show)
        said = self.text("#calls").split("\n")
        self.assertLess(len(said), 15)
        self.assertIn(" × 19", "".join(said))
        self.browser.run(add_calls % 2)
        self.browser.run(show)
        said = self.text("#calls").split("\n")
        self.assertEqual(len(said), 14)
        self.assertRegex(said[-2], r"… \d\d more calls")

    def test_clicks(self):
        self.open(self.tills())
        self.browser.click(*self.lane(0, 0.3))
        hart, count = self.point()
        self.assertEqual(hart, 0)
        self.assertTrue(1500 < count < 6435, count)
        self.assertIn("Hart 0, count", self.text("#point-head"))
        self.browser.click_on("#suspect-1")
        self.assertEqual(self.point(), [0, 6435])
        self.assertIn("store 0001159c=00000000", self.text("#rows tr.here"))
        self.browser.click_on("#chain g[role=button]:nth-of-type(2)")
        self.assertEqual(self.point(), [1, 6416])
        self.browser.click_on("#rows tr.here + tr")
        self.assertEqual(self.point(), [1, 6417])
        self.browser.click_on("#go-start")
        self.assertEqual(self.point(), [1, 6419])
        self.assertEqual(self.browser.errors(), [])

    def test_keys(self):
        self.open(self.tills())
        for key, expected in (("ArrowUp", [1, 6418]), ("ArrowUp", [1, 6417]),
                              ("ArrowDown", [1, 6418]), ("1", [0, 6435]),
                              ("1", [1, 6416]), ("f", [1, 6419])):
            self.browser.key(key)
            self.assertEqual(self.point(), expected, key)
        whole = self.shown()
        self.browser.key("+")
        near = self.shown()
        self.assertAlmostEqual((near[1] - near[0]) * 2, whole[1] - whole[0], delta=1)
        self.browser.key("ArrowLeft")
        self.assertLess(self.shown()[0], near[0])
        self.browser.key("0")
        self.assertEqual(self.shown(), whole)
        self.browser.key("o")
        self.assertEqual(self.browser.run("byId('order-count').getAttribute('aria-pressed')"),
                         "true")
        self.browser.key("o")
        self.browser.key("e")
        self.assertTrue(self.shown()[0] > 10000 and self.shown()[0] < 17871 < self.shown()[1],
                        self.shown())

    def test_a_drag_zooms(self):
        self.open(self.wild())
        x1, y = self.lane(0, 0.4)
        x2, _ = self.lane(0, 0.6)
        self.browser.drag(x1, x2, y)
        low, high = self.shown()
        self.assertTrue(8000 < low < 10000 and 12500 < high < 14500, (low, high))
        self.assertEqual(self.point(), [0, 22675])

    def test_a_group_of_races_is_drawn_when_chosen(self):
        self.open(self.tills())
        count = "document.querySelectorAll('#timeline path[style*=\"--race\"]').length"
        before = self.browser.run(count)
        self.assertGreater(before, 0)
        self.browser.click_on("#races tr:nth-child(2) button[data-race]")
        arcs = self.browser.run("D.races[0].arcs.length")
        self.assertEqual(self.browser.run(count), arcs)
        self.assertIn("the chosen group", self.text("#timeline-note"))
        self.browser.click_on("#order-count")
        self.assertEqual(self.browser.run(count), arcs)
        self.browser.click_on("#races tr:nth-child(2) button[data-race]")
        self.assertEqual(self.browser.run(count), 0)

    def test_an_address_opens_a_row(self):
        self.open(self.tills(), fragment="#0:6435")
        self.assertEqual(self.point(), [0, 6435])
        low, high = self.shown()
        self.assertLess(high - low, 2000)

    def test_drawing_at_both_widths(self):
        pages = (self.wild(), self.tills(),
                 self.page("counter", "--seed", "1", "--harts", "16", "--limit", "3000"),
                 self.page("two_locks", "--seed", "8", "--harts", "2", "--limit", "20000"))
        for path in pages:
            for width in (WIDE, NARROW):
                self.open(path, width=width, dark=width == NARROW)
                for order in ("joint", "count"):
                    self.browser.run("setOrder('%s')" % order)
                    told = path, width, order
                    self.assertEqual(self.browser.run(OUTSIDE), [], told)
                    self.assertEqual(self.browser.run(OVERLAPS), [], told)
                    self.assertLessEqual(self.browser.run("document.documentElement.scrollWidth"),
                                         width, told)
            self.assertEqual(self.browser.run(NO_ROWS), 0, path)
            self.assertEqual(self.browser.errors(), [], path)

    def test_a_hart_is_drawn_where_it_runs(self):
        """In the joint order the parts in which the harts run cover each row once."""
        self.open(self.tills())
        pieces = self.browser.run("[...firstCount].flatMap(([hart, first]) => axisPieces(hart, "
                                  "first, D.strips[hart][1]))")
        pieces.sort()
        self.assertEqual((pieces[0][0], pieces[-1][1]), (1, 17872))
        self.assertEqual([end for _, end in pieces[:-1]], [begin for begin, _ in pieces[1:]])

    def test_text_in_the_chain_stays_readable(self):
        self.open(self.wild(), width=NARROW)
        self.assertGreaterEqual(self.browser.run("byId('chain').getBoundingClientRect().width / "
                                                 "byId('chain').viewBox.baseVal.width"), 0.89)

    def test_contrast_of_texts(self):
        """At least 4.5:1 in both themes, as WCAG asks."""
        ratio = """((a, b) => { const paint = name => { const e = document.createElement('i');
          e.style.color = `var(--${name})`; document.body.append(e);
          const c = getComputedStyle(e).color; e.remove();
          const [r, g, b] = c.match(/\\d+/g).map(v => v / 255).map(
            v => v <= .03928 ? v / 12.92 : ((v + .055) / 1.055) ** 2.4);
          return .2126 * r + .7152 * g + .0722 * b; };
          const [x, y] = [paint(a), paint(b)].sort((p, q) => q - p);
          return (x + .05) / (y + .05); })('%s', '%s')"""
        pairs = [(text, ground) for text in ("ink", "soft", "fault", "hot", "accent", "race")
                 for ground in ("panel", "bg")]
        pairs += [("barink", bar)
                  for bar in ("length", "call", "guard", "good", "stopped", "limit")]
        pairs += [("ink", "row"), ("fault", "row"), ("ink", "hotbg"), ("ink", "faultbg"),
                  ("soft", "hotbg"), ("soft", "faultbg")]
        for dark in (False, True):
            self.open(self.wild(), dark=dark)
            low = [(pair, dark) for pair in pairs if self.browser.run(ratio % pair) < 4.5]
            self.assertEqual(low, [])

    def test_print(self):
        for path in (self.wild(), self.tills()):
            self.open(path, width=A4[0], height=A4[1], dark=True)
            self.browser.look(dark=True, media="print")
            self.browser.run("window.dispatchEvent(new Event('beforeprint'))")
            bottom = self.browser.run("byId('legend').getBoundingClientRect().bottom + scrollY")
            self.assertLess(bottom, A4[1], "the timeline isn't on the first page")
            self.assertEqual(self.browser.run("getComputedStyle(document.body).backgroundColor"),
                             "rgb(255, 255, 255)")
            self.assertEqual(self.browser.run("getComputedStyle(byId('zoom-in')).display"), "none")
            self.browser.look()
            self.assertTrue(self.browser.pdf().startswith(b"%PDF-"))

    def test_picture_of_the_docs(self):
        picture = common.path("view.png")
        said = subprocess.run([os.path.join(common.TOP, "tests", "companions", "lib", "picture.sh"),
                               common.PROGRAM, picture], stdout=subprocess.PIPE,
                              check=True).stdout.decode()
        if said.startswith("skipped"):
            self.skipTest(said)
        self.assertGreater(os.path.getsize(picture), 20000)

    def test_it_asks_for_nothing(self):
        self.open(self.tills())
        self.assertEqual([url[:5] for url in self.browser.requests()], ["file:"])

    def test_markup_in_the_page_would_do_nothing(self):
        """The page's policy is a second wall behind the escaping of names."""
        page = common.text_of(self.wild())
        inserted = ("<img src=x "
                    "onerror=\"document.title='hit'\"><script>document.title='hit'</script></main>")
        self.assertIn("</main>", page)
        self.browser.open(self.save("inserted.html", page.replace("</main>", inserted)))
        self.assertEqual(self.browser.run("document.querySelectorAll('img').length"), 1)
        self.assertEqual(self.browser.run("document.title"), "wild_store.elf: LoadOutside 6e657472")
        self.assertEqual(self.point(), [0, 22675])
        self.assertEqual([url[:5] for url in self.browser.requests() if not url.endswith("/x")],
                         ["file:"])
        self.assertTrue(any("Content Security Policy" in text for text in self.browser.errors()))

    def test_hostile_names_do_nothing(self):
        words = hostile.files(self.elf("tills"),
                              self.record("tills", "--seed", "1", "--harts", "2"))
        self.open(self.save("hostile.html", self.says("view", *words)))
        self.assertTrue(self.browser.run("document.title").endswith(": LoadOutside 00000000"))
        self.assertEqual(self.browser.run("document.querySelectorAll('img, iframe, [onerror], "
                                          "[onmouseover]').length"), 0)
        self.assertEqual(self.browser.run("document.querySelectorAll('script').length"), 2)
        self.assertEqual(self.browser.run("document.querySelector('#calls b').textContent") in
                         [place[0] for place in self.browser.run("D.places")], True)
        self.browser.run("window.dispatchEvent(new Event('resize'))")
        self.browser.key("1")
        self.assertEqual([url[:5] for url in self.browser.requests()], ["file:"])
        self.assertEqual(self.browser.errors(), [])
