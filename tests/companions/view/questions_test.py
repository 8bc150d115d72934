"""zelkuma view --with-questions: the page has what history and calls tell, and a click on a word or
a name opens it."""
import json
import shutil
import unittest

import case
import chromium
import common
import hostile
from case import data_of

RACE = "race_settings"
GDB = "gdb-multiarch"


class Pages(case.Case):
    def page(self, *options):
        """The page of a race, and the files."""
        files = self.crash(RACE)
        return self.says("view", *files, *options), files


class QuestionsTest(Pages):
    def test_they_are_what_history_and_calls_tell(self):
        page, files = self.page("--with-questions")
        data = data_of(page)["questions"]
        self.assertGreater(len(data["variables"]), 1)
        for variable in data["variables"]:
            said = json.loads(self.says("history", *files,
                                        variable["title"].split(" ")[0], "--json"))
            self.assertEqual(variable["stores"], said["stores"])
            self.assertEqual([row[:2] + row[3:5] for row in variable["rows"]],
                             [[each["hart"], each["count"], each["old"], each["new"]]
                              for each in said["entries"]])
        names = [function["name"] for function in data["functions"]]
        self.assertLessEqual({"compute", "install"}, set(names))
        for function in data["functions"]:
            said = json.loads(self.says("calls", *files, function["name"], "--json"))
            self.assertEqual([row[:2] for row in function["rows"]],
                             [[each["hart"], each["count"]] for each in said["entries"]])

    def test_lines_are_what_at_tells(self):
        if not shutil.which(GDB):
            self.skipTest(f"{GDB} isn't installed")
        page, files = self.page("--with-questions")
        lines = data_of(page)["questions"]["lines"]
        self.assertGreater(len(lines), 1)
        for line in lines:
            with self.subTest(line["line"]):
                said = json.loads(self.says("at", *files, line["line"], *line["names"], "--last",
                                            "40", "--json"))
                self.assertEqual((line["passes"], line["rows"]),
                                 (said["passes"], [[each["hart"], each["count"], *each["values"]]
                                                   for each in said["entries"]]))
        self.assertGreater(sum(line["passes"] for line in lines), len(lines))

    def test_without_gdb_no_line_is_told(self):
        files = self.crash(RACE)
        _, page, _ = common.companion("view", *files, "--with-questions",
                                      environment={"ZELKUMA_GDB": "/nowhere/gdb"})
        self.assertEqual(data_of(page)["questions"]["lines"], [])

    def test_it_is_bounded(self):
        from companion.view import questions
        page, _ = self.page("--with-questions")
        data = data_of(page)["questions"]
        self.assertLessEqual(len(data["variables"]), questions.VARIABLES)
        self.assertLessEqual(len(data["functions"]), questions.FUNCTIONS)
        log = self.record("heap", "--seed", "1")
        elf = self.elf("heap")
        data = data_of(self.says("view", log, elf, "--with-questions"))["questions"]
        told = max(data["variables"] + data["functions"],
                   key=lambda each: each.get("stores", 0) + each.get("calls", 0))
        self.assertGreater(told.get("stores", 0) + told.get("calls", 0), questions.TOLD)
        self.assertEqual(len(told["rows"]), questions.TOLD)

    def test_a_page_without_them(self):
        self.assertNotIn("questions", data_of(self.page()[0]))


@unittest.skipUnless(chromium.find(), "chromium isn't installed")
class ClickTest(Pages):
    def opened(self, browser, text, **more):
        common.written(common.path("page.html"), text)
        browser.open(common.path("page.html"), **more)
        self.assertEqual(browser.errors(), [])

    def test_clicks(self):
        with chromium.Browser() as browser:
            def text(id):
                return browser.run(f"byId('{id}').innerText")

            self.opened(browser, self.page("--with-questions")[0])
            self.assertIn("of each the last 40", text("question-note"))
            chosen = browser.run("[state.chosen.hart, state.chosen.count]")
            browser.click_on("#rows td:nth-child(4) .question")
            self.assertRegex(text("question-head"), r"^(pool|current|started) \(")
            self.assertRegex(text("question-said"), r"^\d+ stores?$")
            # The row isn't chosen by it
            self.assertEqual(browser.run("[state.chosen.hart, state.chosen.count]"), chosen)
            place = text("question").split("\n")[1].split("\t")[0]
            browser.click_on("#question tr:nth-child(2) button")
            self.assertEqual("%d:%d"
                             % tuple(browser.run("[state.chosen.hart, state.chosen.count]")),
                             place.replace(",", ""))
            browser.click_on("#calls .question")
            self.assertRegex(text("question-said"), r"^\d+ calls?$")
            self.assertEqual(text("question-head").split("(")[0],
                             browser.run("document.querySelector('#calls .question').innerText"))
            if browser.run("document.querySelectorAll('#rows .line').length"):
                browser.click_on("#rows .line")
                self.assertRegex(text("question-head"),
                                 r"^race_settings\.c:\d+: variables before it$")
                self.assertRegex(text("question-said"),
                                 r"^\d+ pass(es)?(; these are the last 40)?$")
            for width in (1280, 800):
                self.opened(browser, self.page("--with-questions")[0], width=width)
                browser.run("showHistory(asked.variables[0])")
                self.assertLessEqual(browser.run("document.documentElement.scrollWidth"), width)
            self.opened(browser, self.page()[0])
            self.assertEqual(browser.run("document.querySelectorAll('.question').length"), 0)
            self.assertEqual(browser.run("byId('question-card').hidden"), True)

    def test_hostile_names_do_nothing(self):
        words = hostile.files(self.elf("tills"),
                              self.record("tills", "--seed", "1", "--harts", "2"))
        with chromium.Browser() as browser:
            _, said, _ = common.companion("view", *words, "--with-questions")
            self.opened(browser, said)
            browser.run("for (const each of asked.variables) showHistory(each)")
            browser.run("for (const each of asked.functions) showFunction(each)")
            browser.run("for (const each of asked.lines) showLine(each)")
            self.assertEqual(browser.run("document.querySelectorAll('img, iframe, [onerror], "
                                         "[onmouseover]').length"), 0)
            self.assertGreater(browser.run("asked.variables.length + asked.functions.length"), 0)
            self.assertEqual([url[:5] for url in browser.requests()], ["file:"])
            self.assertEqual(browser.errors(), [])
