"""Looks at pages: each parses as XML and as HTML, has no script, and asks for nothing from elsewhere. python3 look.py PAGE.html .."""
import html.parser, re, sys, xml.etree.ElementTree

SHY = {"script", "img", "image", "iframe", "object", "embed", "link", "base", "form", "audio", "video", "use", "foreignobject"}


class Look(html.parser.HTMLParser):
    def __init__(self):
        super().__init__()
        self.faults = []

    def handle_starttag(self, tag, attrs):
        if tag.lower() in SHY:
            self.faults.append(f"element {tag}")
        for key, value in attrs:
            if key in ("src", "href", "xlink:href", "srcset", "data", "action") or key.startswith("on"):
                self.faults.append(f"attribute {key}")
            if "url(" in (value or "").replace("url(#", ""):
                self.faults.append(f"url in {key}")


def faults_of(text):
    look = Look()
    look.feed(text)
    look.close()
    style = "".join(re.findall(r"<style>(.*?)</style>", text, re.S))
    if "url(" in style.replace("url(#", "") or "@import" in style or "@font-face" in style:
        look.faults.append("the style sheet asks for something")
    try:
        tree = xml.etree.ElementTree.fromstring(text)
        tags = {e.tag.split("}")[1].lower() for e in tree.iter()}
        look.faults += [f"element {t}" for t in sorted(tags & SHY)]
    except xml.etree.ElementTree.ParseError as error:
        look.faults.append(f"no XML: {error}")
    return look.faults


if __name__ == "__main__":
    failed = False
    for path in sys.argv[1:]:
        found = faults_of(open(path, encoding="utf-8", newline="").read())
        failed = failed or bool(found)
        print(path, "stands alone" if not found else "; ".join(found))
    sys.exit(failed)
