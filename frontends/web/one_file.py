"""What pages in one file are made of: texts in base64, a content security policy, licences, and the page of a game."""

import base64
import hashlib
import html
import os
import re

HERE = os.path.dirname(os.path.abspath(__file__))
# in the repository, and where it is installed
NOTICES = [os.path.join(os.path.dirname(os.path.dirname(HERE)), "THIRD-PARTY"), os.path.join(os.path.dirname(HERE), "THIRD-PARTY")]


def text_of(*path):
    with open(os.path.join(*path), encoding="utf-8") as file:
        return file.read()


def notices():
    """The licences of all that a page contains, as text of HTML."""
    place = next((place for place in NOTICES if os.path.exists(place)), NOTICES[0])
    return html.escape(text_of(place), quote=False)


def encoded(content):
    return base64.b64encode(content).decode("ascii")


def policy(scripts, styles, others):
    """What the page may load: its own scripts and styles, which are told by their checksums, and nothing from elsewhere."""
    def sums(texts):
        return " ".join(f"'sha256-{encoded(hashlib.sha256(text.encode()).digest())}'" for text in texts)

    rules = ["default-src 'none'", f"script-src {others} {sums(scripts)}", f"style-src {sums(styles)}", "img-src data: blob:"]
    return "; ".join([*rules, "worker-src blob:", "form-action 'none'", "base-uri 'none'"])


def game_template():
    """The page of a game, but for what is of one game: @TITLE@, @SETTINGS@, @GAME@ and @MODULE@ stand in its place."""
    script = text_of(HERE, "game.js")
    style = text_of(HERE, "game.css")
    parts = {"POLICY": policy([script], [style], "'wasm-unsafe-eval'"), "STYLE": style, "SCRIPT": script, "NOTICES": notices()}
    return re.sub("@(POLICY|STYLE|SCRIPT|NOTICES)@", lambda found: parts[found[1]], text_of(HERE, "game.html"))
