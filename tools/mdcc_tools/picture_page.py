"""The page of a picture: its data and its script in one file."""
import html
import json
import os
import re

HERE = os.path.dirname(os.path.abspath(__file__))


def part(name: str) -> str:
    with open(os.path.join(HERE, name), encoding="utf-8") as file:
        return file.read()


def page_of(data: dict) -> str:
    """The whole page. What stands in data cannot end the script that holds it."""
    text = json.dumps(data, separators=(",", ":"), ensure_ascii=True).replace("<", "\\u003c")
    values = {"TITLE": html.escape(data["title"]), "SCRIPT": part("picture_page.js") + part("picture_panel.js"), "DATA": text}
    return re.sub("@(TITLE|SCRIPT|DATA)@", lambda found: values[found.group(1)], part("picture_page.html"))
