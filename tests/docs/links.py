"""Follows each link of the pages: the file that it names exists, and if it names a heading, the page has that heading."""
import os
import re
import subprocess
import urllib.parse

TOP = os.path.dirname(os.path.dirname(os.path.dirname(os.path.abspath(__file__))))
FENCE = re.compile(r"^( *)(```|~~~).*?^\1\2 *$", re.DOTALL | re.MULTILINE)
CODE = re.compile(r"(`+)(?!`).*?(?<!`)\1(?!`)", re.DOTALL)
LINK = re.compile(r"\]\(\s*<?([^)\s>]+)>?(?:\s+\"[^\"]*\")?\s*\)|^\[[^\]]+\]:\s+<?([^\s>]+)", re.MULTILINE)
HEADING = re.compile(r"^#{1,6} +(.*?)#* *$", re.MULTILINE)


def pages():
    """Returns the paths of the pages that git knows."""
    listed = subprocess.run(["git", "-C", TOP, "ls-files", "-z", "*.md"], check=True, capture_output=True, text=True)
    return [it for it in listed.stdout.split("\0") if it]


def read(path, top):
    with open(os.path.join(top, path), encoding="utf-8") as it:
        return FENCE.sub("", it.read())


def anchors(page, top):
    """Returns the anchors of a page's headings, as GitHub names them."""
    found = {}
    for heading in HEADING.findall(read(page, top)):
        text = re.sub(r"\[([^\]]*)\]\([^)]*\)", r"\1", heading).replace("`", "")
        slug = re.sub(r"[^\w\- ]", "", text.strip().lower()).replace(" ", "-")
        count = found.get(slug, -1) + 1
        found[slug] = count
        if count:
            found[f"{slug}-{count}"] = 0
    return set(found)


def links(page, top=TOP):
    """Returns the targets of a page's links, without those to other sites."""
    found = [first or second for first, second in LINK.findall(CODE.sub("", read(page, top)))]
    return [it for it in found if not re.match(r"[a-z][a-z0-9+.-]*:", it)]


def check(tests, top=TOP, listed=None):
    """Checks each link of each page below `top`, by default of all pages that git knows."""
    listed = pages() if listed is None else listed
    count = 0
    for page in listed:
        for target in links(page, top):
            count += 1
            path, _, anchor = urllib.parse.unquote(target).partition("#")
            to = os.path.normpath(os.path.join(os.path.dirname(page), path)) if path else page
            exists = os.path.exists(os.path.join(top, to))
            tests.check(f"{page} links to a file: {target}", exists)
            if exists and anchor and to.endswith(".md"):
                tests.check(f"{page} links to a heading: {target}", anchor in anchors(to, top))
    tests.check(f"there are pages with links below {top}", len(listed) > 20 and count > 50)
