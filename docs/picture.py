"""What the scripts that draw the pictures share: the elements of an SVG, its page, and how it is written or checked."""
import os

HERE = os.path.dirname(os.path.abspath(__file__))


def figure(value):
    """A number with at most one decimal."""
    return ("%.1f" % value).rstrip("0").rstrip(".")


def tag(name, text=None, **attributes):
    """An element, with its text where it has some. `class_` is written class, and `text__anchor` text-anchor."""
    words = [name]
    for key, value in attributes.items():
        value = value if isinstance(value, str) else figure(value)
        words.append('%s="%s"' % (key.rstrip("_").replace("__", "-"), value))
    return "  <%s%s\n" % (" ".join(words), "/>" if text is None else ">%s</%s>" % (text, name))


def page(script, title, width, height, style, inside):
    """A whole picture. It has a ground of its own, so that it reads on dark pages too."""
    sizes = (width, height, width, height)
    out = '<svg xmlns="http://www.w3.org/2000/svg" viewBox="0 0 %d %d" width="%d" height="%d">\n' % sizes
    out += "  <!-- written by docs/%s -->\n" % script
    out += tag("title", title) + tag("style", style + "  ")
    out += tag("rect", class_="page", x=0.5, y=0.5, width=width - 1, height=height - 1, rx=6)
    return out + inside + "</svg>\n"


def write(name, contents):
    """Writes a picture of docs/."""
    with open(os.path.join(HERE, name), "w", encoding="utf-8") as picture:
        picture.write(contents)


def is_kept(name, contents):
    """Whether a picture of docs/ has these contents."""
    with open(os.path.join(HERE, name), encoding="utf-8") as picture:
        return picture.read() == contents
