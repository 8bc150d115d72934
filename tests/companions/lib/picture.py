"""picture.py PAGE PNG [DARK-PNG]: the first screen of a page of `zelkuma view`, down to the end of
its timeline, in a light and in a dark theme."""
import sys

import chromium

WIDTH = 1280
MARGIN = 14
BOTTOM = ("document.getElementById('timeline').closest('.card').getBoundingClientRect().bottom "
          "+ scrollY")


def main(page, *pictures):
    with chromium.Browser() as browser:
        for picture, dark in zip(pictures, (False, True)):
            browser.open(page, width=WIDTH, height=1500, dark=dark)
            if browser.errors():
                sys.exit("the page has errors: " + browser.errors()[0])
            browser.picture(picture, int(browser.run(BOTTOM)) + MARGIN)


if __name__ == "__main__":
    main(*sys.argv[1:])
