"""Renders the Markdown that netflow's documents use as HTML: paragraphs, lists, tables, code, emphasis and links."""
import re
from html import escape

ITEM = re.compile(r"( *)(?:-|\d+\.) (.*)")
LINK = re.compile(r"\[([^\]]*)\]\(([^)]*)\)")


def rendered(text):
    """Returns the HTML of a document or a part of it, with the texts of links in place of the links."""
    return Document().rendered(text)


def anchor(title):
    """Returns the anchor of a heading, as in links to it."""
    return re.sub(r"[^\w -]", "", title.lower()).strip().replace(" ", "-")


class Document:
    """A document with links. `link` returns where a link leads in the page, such as `#language-sets`, or None: then only its text is
    shown. With a name, each heading has an id such as `NAME-sets`. Its highest headings become h3."""

    def __init__(self, link=lambda target: None, name=""):
        self.link, self.name, self.top = link, name, 1

    def rendered(self, text):
        lines, parts, here = text.strip("\n").split("\n"), [], 0
        self.top = min((len(it) for it in re.findall(r"(?m)^(#+) ", text)), default=1)
        while here < len(lines):
            take = next(take for starts, take in self.BLOCKS if starts(lines[here]))
            part, here = take(self, lines, here)
            parts.append(part)
        return "\n".join(filter(None, parts))

    def inline(self, text):
        """Returns the HTML of a line's text."""
        parts = re.split(r"(`[^`]*`)", text)
        return "".join(f"<code>{escape(it[1:-1])}</code>" if number % 2 else self.marked(it) for number, it in enumerate(parts))

    def marked(self, text):
        text = LINK.sub(self.linked, escape(text, quote=False))
        text = re.sub(r"\*\*([^*]+)\*\*", r"<strong>\1</strong>", text)
        return re.sub(r"\*([^*\s][^*]*)\*", r"<em>\1</em>", text)

    def linked(self, found):
        place = self.link(found[2])
        return f'<a href="{place}">{found[1]}</a>' if place else found[1]

    def take_blank(self, lines, here):
        return "", here + 1

    def take_code(self, lines, here):
        end = lines.index("```", here + 1)
        return f"<pre>{escape(chr(10).join(lines[here + 1:end]))}</pre>", end + 1

    def take_heading(self, lines, here):
        level, title = min(6, lines[here].index(" ") - self.top + 3), lines[here].lstrip("# ")
        place = f' id="{self.name}-{anchor(title)}"' if self.name else ""
        return f"<h{level}{place}>{self.inline(title)}</h{level}>", here + 1

    def take_table(self, lines, here):
        end = next((at for at in range(here, len(lines)) if not lines[at].startswith("|")), len(lines))
        rows = [[it.strip() for it in re.split(r"(?<!\\)\|", line.strip("|"))] for line in lines[here:end]]
        head = "".join(f'<th scope="col">{self.inline(it)}</th>' for it in rows[0])
        body = "\n".join(f"<tr>{''.join(f'<td>{self.inline(it)}</td>' for it in row)}</tr>" for row in rows[2:])
        return f'<div class="wide" tabindex="0" role="region" aria-label="Table"><table><thead><tr>{head}</tr></thead><tbody>{body}</tbody></table></div>', end

    def take_list(self, lines, here):
        """Renders a list; items that are indented more are a list in the item before them."""
        indent, is_ordered, items = len(ITEM.match(lines[here])[1]), not lines[here].lstrip().startswith("-"), []
        while here < len(lines) and (found := ITEM.match(lines[here])) and len(found[1]) >= indent:
            if len(found[1]) > indent:
                inner, here = self.take_list(lines, here)
                items[-1] += inner
            else:
                items.append(self.inline(found[2]))
                here += 1
        kind = "ol" if is_ordered else "ul"
        return f"<{kind}>{''.join(f'<li>{it}</li>' for it in items)}</{kind}>", here

    def take_paragraph(self, lines, here):
        end = next((at for at in range(here, len(lines)) if not lines[at] or ITEM.match(lines[at]) or lines[at].startswith(("|", "```"))), len(lines))
        return f"<p>{self.inline(' '.join(lines[here:end]))}</p>", end

    BLOCKS = (
        (lambda line: not line.strip(), take_blank),
        (lambda line: line.startswith("```"), take_code),
        (lambda line: line.startswith("#"), take_heading),
        (lambda line: line.startswith("|"), take_table),
        (ITEM.match, take_list),
        (lambda line: True, take_paragraph),
    )
