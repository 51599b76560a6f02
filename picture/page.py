"""The page: the picture with a small script that shows one message or row of it. Nothing comes from elsewhere."""

import html
import pathlib

FRAME = pathlib.Path(__file__).with_name('page.html')


def page(svg, name):
    title, picture = f'Rehearsal of {html.escape(name)}', '<!-- the picture -->'
    return FRAME.read_text(encoding='utf-8').replace('<title></title>', f'<title>{title}</title>').replace(picture, svg)
