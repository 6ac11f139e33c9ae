"""The picture of the page in the documents: how Chromium draws it, in few colours."""
import contextlib
import hashlib
import pathlib
import struct
import tempfile
import time
import zlib

import browsers
import inputs
from page import Page

# The size of the window, and how many bytes the picture may not have.
SIZE, MOST = (1280, 680), 80_000
SIGNATURE = b"\x89PNG\r\n\x1a\n"
# The bytes of each pixel of a picture: red, green, blue, and how opaque it is.
PIXELS = """(async () => {
  const image = new Image();
  image.src = 'data:image/png;base64,PICTURE';
  await image.decode();
  const canvas = new OffscreenCanvas(image.width, image.height).getContext('2d');
  canvas.drawImage(image, 0, 0);
  return [...canvas.getImageData(0, 0, image.width, image.height).data];
})()"""


def draw(target, file):
    """Draws the picture."""
    with tempfile.TemporaryDirectory() as room:
        with contextlib.closing(browsers.Chromium(room)) as browser:
            page = Page(browser, file, pathlib.Path(room))
            browser.size(*SIZE)
            page.give("key.der", inputs.KEY)
            page.press("ArrowDown", "ArrowDown")
            time.sleep(0.3)
            picture = browser.ask("Page.captureScreenshot", format="png")["data"]
            # Another page may read it.
            browser.turn_to(1)
            pixels = bytes(browser.run(PIXELS.replace("PICTURE", picture)))
    target.write_bytes(indexed(pixels, file))


def indexed(pixels, file):
    """Returns a PNG with four bits of each colour."""
    colors, lines = {}, b""
    for at in range(0, len(pixels), 4 * SIZE[0]):
        line = bytes((it + 8) // 17 * 17 for it in pixels[at:at + 4 * SIZE[0]])
        found = (line[place:place + 3] for place in range(0, len(line), 4))
        lines += b"\0" + bytes(colors.setdefault(it, len(colors)) for it in found)
    head = struct.pack(">IIBBBBB", *SIZE, 8, 3, 0, 0, 0)
    return SIGNATURE + b"".join(
        struct.pack(">I", len(data)) + kind + data + struct.pack(">I", zlib.crc32(kind + data))
        for kind, data in ((b"IHDR", head), (b"PLTE", b"".join(colors)), (b"tEXt", source(file)),
                           (b"IDAT", zlib.compress(lines, 9)), (b"IEND", b"")))


def source(file):
    """Returns the chunk that says of which page a picture is."""
    return b"Source\0SHA-256 " + hashlib.sha256(file.read_bytes()).hexdigest().encode()


def chunks(image):
    """Yields the kind and the data of each chunk of a PNG."""
    at = len(SIGNATURE)
    while at < len(image):
        size, kind = struct.unpack_from(">I4s", image, at)
        yield kind, image[at + 8:at + 8 + size]
        at += 12 + size


def is_drawn(target, file):
    """Returns whether there is a PNG of this page, of the size that it has to have, and small."""
    image = target.read_bytes()
    found = dict(chunks(image)) if image.startswith(SIGNATURE) else {}
    return (found.get(b"IHDR", b"")[:8] == struct.pack(">II", *SIZE) and len(image) < MOST
            and found.get(b"tEXt") == source(file)
            and len(zlib.decompress(found[b"IDAT"])) == (SIZE[0] + 1) * SIZE[1])
